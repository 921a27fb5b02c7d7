% Two operators fit, and nothing says which one is meant.
Ambiguous: trait
  introduces
    empty: -> Q
    empty: -> S
    isEmpty: Q -> Bool
    isEmpty: S -> Bool
  asserts
    isEmpty(empty: Q);
    isEmpty(empty: S)
