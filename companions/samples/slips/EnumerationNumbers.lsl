EnumerationNumbers: trait
  Dice enumeration of 1..6
  introduces
    a: -> Dice
