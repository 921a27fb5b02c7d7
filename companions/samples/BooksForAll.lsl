BooksForAll: trait
  introduces
    none: -> Bag
    put: Thing, Bag -> Bag
    many: Bag -> Num
    has: Bag, Thing -> Bool
    zero: -> Num
    next: Num -> Num
  asserts
    \A b: Bag, thing: Thing
      has(b, thing) => has(b, thing)
