BracketOpen: trait
  includes Number
  Place tuple of row, column: Num
  introduces
    origin: -> Place
  asserts
    origin == [zero, zero;
    origin.row == zero
