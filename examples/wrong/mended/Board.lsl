% A square is a tuple of two: the two enumerations and the tuple make 78 statements.
Board: trait
  Column enumeration of a, b, c, d, e, f, g, h
  Row enumeration of 1, 2, 3, 4, 5, 6, 7, 8
  Square tuple of column: Column, row: Row
  introduces
    isCorner: Square -> Bool
  asserts
    \forall q: Square
      isCorner(q) == (q.column = a \/ q.column = h) /\ (q.row = 1 \/ q.row = 8)
