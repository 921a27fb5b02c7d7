Overloaded: trait
  includes Twofold
  asserts
    next(unit) == next(unit: Num)
