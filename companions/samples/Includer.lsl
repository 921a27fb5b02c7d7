Includer: trait
  includes SemicolonMissing
  introduces
    one: -> Num
