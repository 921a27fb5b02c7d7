SortMisspelt: trait
  introduces
    none: -> Bag
    put: Thing, Bag -> Bag
    many: Bag -> Num
    has: Bag, Thing -> Bool
    zero: -> Num
    next: Num -> Num
  asserts
    \forall n: Nun
      next(n) ~= zero
