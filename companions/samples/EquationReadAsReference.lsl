EquationReadAsReference: trait
  introduces
    none: -> Bag
    put: Thing, Bag -> Bag
    many: Bag -> Num
    has: Bag, Thing -> Bool
    zero: -> Num
    next: Num -> Num
  asserts
    \forall t: Thing
      ~has(none, t)
  implies many(none)
  converts has
