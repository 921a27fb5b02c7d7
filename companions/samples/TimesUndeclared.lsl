TimesUndeclared: trait
  includes Number
  asserts
    \forall m: Num
      m * zero == zero
