% A constant has an arrow too, with nothing before it.
Arrow: trait
  introduces
    empty: Q
    isEmpty: Q -> Bool
  asserts
    isEmpty(empty)
