TwoTraits: trait
  introduces
    zero: -> Num
Second: trait
  introduces
    one: -> Num
