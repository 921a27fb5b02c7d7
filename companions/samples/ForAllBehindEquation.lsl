ForAllBehindEquation: trait
  introduces
    none: -> Bag
    put: Thing, Bag -> Bag
    many: Bag -> Num
    has: Bag, Thing -> Bool
    zero: -> Num
    next: Num -> Num
  asserts
    has(put(t, b), t) \forall b: Bag, t: Thing
