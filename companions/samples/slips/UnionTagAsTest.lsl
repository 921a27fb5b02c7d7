UnionTagAsTest: trait
  Shape union of circle: Circle, square: Square
  introduces
    isRound: Shape -> Bool
  asserts
    \forall s: Shape
      isRound(s) == s is circle
