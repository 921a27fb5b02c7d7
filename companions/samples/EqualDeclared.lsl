EqualDeclared: trait
  introduces
    zero: -> Num
    __ = __: Num, Num -> Bool
