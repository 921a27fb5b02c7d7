OneUnderline: trait
  introduces
    zero: -> Num
    _*_: Num, Num -> Num
