TupleWithColon: trait
  Point: tuple of x: Coord, y: Coord
  introduces
    origin: -> Point
