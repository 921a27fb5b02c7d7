DeclaredInAnotherTrait: trait
  introduces
    first: Thing -> Thing
  asserts
    \forall t: Thing
      first(t) = left(t, t)
