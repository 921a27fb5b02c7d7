LetBefore: trait
  introduces
    none: -> Bag
    put: Thing, Bag -> Bag
    many: Bag -> Num
    has: Bag, Thing -> Bool
    zero: -> Num
    next: Num -> Num
  asserts
    \forall b: Bag, t: Thing
      let c = put(t, b) in has(c, t)
