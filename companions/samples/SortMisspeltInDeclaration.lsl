SortMisspeltInDeclaration: trait
  introduces
    none: -> Basket
    put: Thing, Basekt -> Basket
    has: Basket, Thing -> Bool
  asserts
    \forall b: Basket, t: Thing
      has(put(t, b), t)
