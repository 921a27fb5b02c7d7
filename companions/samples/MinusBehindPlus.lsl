MinusBehindPlus: trait
  includes Number
  asserts
    \forall m, n: Num
      m - n == m + -n
