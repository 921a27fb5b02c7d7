NoBreakSpace: trait
  introduces
    zero: -> Num
