InfixWord: trait
  introduces
    __ in __: Book, Shelf -> Bool
    empty: -> Shelf
  asserts
    \forall b: Book
      ~(b in empty)
