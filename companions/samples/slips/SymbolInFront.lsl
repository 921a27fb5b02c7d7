SymbolInFront: trait
  introduces
    0: -> N
    __ + __: N, N -> N
  asserts
    \forall n: N
      +(n, 0) == n
