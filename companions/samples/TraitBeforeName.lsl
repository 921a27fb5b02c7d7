trait TraitBeforeName
  introduces
    zero: -> Num
