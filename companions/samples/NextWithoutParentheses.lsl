NextWithoutParentheses: trait
  introduces
    none: -> Bag
    put: Thing, Bag -> Bag
    many: Bag -> Num
    has: Bag, Thing -> Bool
    zero: -> Num
    next: Num -> Num
  asserts
    \forall b: Bag, t: Thing
      many(put(t, b)) == next many(b)
