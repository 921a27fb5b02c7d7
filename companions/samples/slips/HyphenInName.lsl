HyphenInName: trait
  introduces
    new: -> Stack
    is-empty: Stack -> Bool
  asserts
    is-empty(new)
