% What is taken from other traits stands before all declarations.
Parts: trait
  introduces
    least: -> T
  includes Order (T)
  asserts
    \forall x: T
      least <= x
