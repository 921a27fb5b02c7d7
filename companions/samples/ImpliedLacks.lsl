ImpliedLacks: trait
  introduces
    zero: -> Num
  implies Number
