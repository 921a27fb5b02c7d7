SymbolsRunTogether: trait
  includes Number
  asserts
    \forall m, n: Num
      m ==-n
