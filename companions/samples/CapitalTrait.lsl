CapitalTrait: Trait
  introduces
    zero: -> Num
