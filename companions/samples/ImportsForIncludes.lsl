ImportsForIncludes: trait
  imports Number
  introduces
    one: -> Num
