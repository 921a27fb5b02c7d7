SortBehindTupleWord: trait
  includes Number
  tuple Place of row: Num, column: Num
