OneUnderlineBehind: trait
  introduces
    zero: -> Num
    _ !: Num -> Num
