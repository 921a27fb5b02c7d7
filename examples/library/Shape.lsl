% Shapes of two kinds, each with its measure.
Shape: trait
  includes Natural
  Shape union of circle: N, square: N
  introduces
    grow: Shape -> Shape
  asserts
    \forall n: N
      grow(circle(n)) == circle(s(n));
      grow(square(n)) == square(s(n))
