IncludesAs: trait
  includes Number as N
  introduces
    one: -> Num
