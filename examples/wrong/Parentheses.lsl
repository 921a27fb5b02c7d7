% A tuple is written in brackets.
Parentheses: trait
  Point tuple of x, y: N
  introduces
    turned: Point -> Point
  asserts
    \forall p: Point
      turned(p) == (p.y, p.x)
