TraitIs: trait is
  introduces
    zero: -> Num
