ReferencesWithAnd: trait
  includes Number and Pairing
  introduces
    low: -> Num
