PlusWithTimes: trait
  includes Number
  introduces
    __ * __: Num, Num -> Num
  asserts
    \forall m, n: Num
      m + n * m == m
