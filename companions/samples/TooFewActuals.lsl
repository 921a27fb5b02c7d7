TooFewActuals: trait
  includes Pairing (Num)
