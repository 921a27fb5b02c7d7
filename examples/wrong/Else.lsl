% An `if` is a term, so it says what it is in either case.
Else: trait
  includes Order (T)
  introduces
    max: T, T -> T
  asserts
    \forall x, y: T
      max(x, y) == if x <= y then y
