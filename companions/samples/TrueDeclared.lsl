TrueDeclared: trait
  introduces
    true: -> Bool
    zero: -> Num
