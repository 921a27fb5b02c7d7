ColonInNames: trait
  introduces
    zero: one: -> Num
