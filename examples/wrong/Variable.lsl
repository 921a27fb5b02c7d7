% Two variables of one item have different names.
Variable: trait
  introduces
    __ * __: M, M -> M
  asserts
    \forall x, y, x: M
      (x * y) * x == x * (y * x)
