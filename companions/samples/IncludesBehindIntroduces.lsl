IncludesBehindIntroduces: trait
  introduces
    twice: Num -> Num
  includes Number
  asserts
    \forall n: Num
      twice(n) == n + n
