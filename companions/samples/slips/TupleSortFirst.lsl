TupleSortFirst: trait
  Point tuple of Coord x, Coord y
  introduces
    a: -> Point
