RecordForTuple: trait
  includes Number
  Place record of row, column: Num
