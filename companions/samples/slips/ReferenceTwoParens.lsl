ReferenceTwoParens: trait
  includes Pairing(Num)(Two)
