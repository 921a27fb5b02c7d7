IfDeclared: trait
  introduces
    zero: -> Num
    if __ then __ else __: Bool, Num, Num -> Num
