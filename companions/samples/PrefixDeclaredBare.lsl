PrefixDeclaredBare: trait
  introduces
    zero: -> Num
    -: Num -> Num
