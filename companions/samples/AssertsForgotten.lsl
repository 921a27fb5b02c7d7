AssertsForgotten: trait
  introduces
    none: -> Bag
    put: Thing, Bag -> Bag
    many: Bag -> Num
    has: Bag, Thing -> Bool
    zero: -> Num
    next: Num -> Num
    \forall b: Bag, t: Thing
      has(put(t, b), t)
