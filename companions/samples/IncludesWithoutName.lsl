IncludesWithoutName: trait
  includes
  introduces
    one: -> Num
