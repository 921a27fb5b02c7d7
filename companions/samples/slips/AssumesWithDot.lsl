AssumesWithDot: trait
  assumes Number.
  introduces
    a: -> Num
