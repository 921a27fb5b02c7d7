FieldMisspelt: trait
  includes Number
  Place tuple of row, column: Num
  introduces
    origin: -> Place
  asserts
    origin.colum == zero
