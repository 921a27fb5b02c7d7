FieldWithoutSort: trait
  includes Number
  Place tuple of row: Num, column
  introduces
    origin: -> Place
