WordBetweenArguments: trait
  introduces
    empty: -> Shelf
    member: Book, Shelf -> Bool
    add: Book, Shelf -> Shelf
  asserts
    \forall b: Book, s: Shelf
      b member add(b, s)
