MinusBehindPlusInside: trait
  includes Number
  asserts
    \forall m, n: Num
      next(m + - n) == next(m - n);
      m + n == n + m
