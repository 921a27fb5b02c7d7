TupleInParentheses: trait
  includes Number
  Place tuple of row, column: Num
  introduces
    down: Place -> Place
  asserts
    \forall p: Place
      down(p) == (next(p.row), p.column)
