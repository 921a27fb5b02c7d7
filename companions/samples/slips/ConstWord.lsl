ConstWord: trait
  introduces
    const zero: -> Count
    up: Count -> Count
