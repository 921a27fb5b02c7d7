ReferenceWithSemicolon: trait
  includes Number;
  introduces
    one: -> Num
