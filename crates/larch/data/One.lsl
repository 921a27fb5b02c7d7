One: trait
  introduces
    c: -> S
