AnotherName: trait
  introduces
    zero: -> Num
