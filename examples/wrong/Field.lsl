% The fields of a tuple have different names.
Field: trait
  Point tuple of x: N, x: N
  introduces
    turned: Point -> Point
  asserts
    \forall p: Point
      turned(p) == [p.y, p.x]
