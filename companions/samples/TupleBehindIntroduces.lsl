TupleBehindIntroduces: trait
  includes Number
  introduces
    origin: -> Place
  Place tuple of row, column: Num
  asserts
    origin.row == zero
