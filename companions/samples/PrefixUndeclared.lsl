PrefixUndeclared: trait
  introduces
    zero: -> Num
    __ - __: Num, Num -> Num
  asserts
    \forall n: Num
      -n == zero - n
