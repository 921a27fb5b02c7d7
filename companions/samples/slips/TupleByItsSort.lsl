TupleByItsSort: trait
  Point tuple of x: Coord, y: Coord
  introduces
    turned: Point -> Point
  asserts
    \forall p: Point
      turned(p) == Point(p.y, p.x)
