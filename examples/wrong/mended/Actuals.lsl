% There are as many actuals as the other trait has formals.
Actuals: trait
  includes Order (T)
  introduces
    least: -> T
  asserts
    \forall x: T
      least <= x
