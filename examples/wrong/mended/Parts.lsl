% What is taken from other traits stands before all declarations.
Parts: trait
  includes Order (T)
  introduces
    least: -> T
  asserts
    \forall x: T
      least <= x
