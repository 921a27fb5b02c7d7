BecomesBuiltIn: trait
  includes Number (Bool for Num, true for zero)
