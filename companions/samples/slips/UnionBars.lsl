UnionBars: trait
  Shape union of circle | square
  introduces
    a: -> Shape
