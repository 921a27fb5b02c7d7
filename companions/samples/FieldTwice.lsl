FieldTwice: trait
  includes Number
  Place tuple of row: Num, column: Num, row: Num
