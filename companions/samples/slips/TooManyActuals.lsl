TooManyActuals: trait
  includes Pairing(Num, Num, Num, Num, Num)
