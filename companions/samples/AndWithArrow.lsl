AndWithArrow: trait
  introduces
    none: -> Bag
    put: Thing, Bag -> Bag
    many: Bag -> Num
    has: Bag, Thing -> Bool
    zero: -> Num
    next: Num -> Num
  asserts
    \forall b: Bag, s, t: Thing
      has(b, s) /\ has(b, t) => has(put(s, b), t)
