RoundC: trait
  includes RoundA
