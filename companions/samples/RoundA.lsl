RoundA: trait
  includes RoundB
