FieldsByColonOnly: trait
  includes Number
  Point tuple of x Num, y Num
