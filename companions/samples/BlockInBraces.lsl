BlockInBraces: trait
  introduces {
    zero: -> Num
    next: Num -> Num
  }
