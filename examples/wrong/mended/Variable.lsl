% Two variables of one item have different names.
Variable: trait
  introduces
    __ * __: M, M -> M
  asserts
    \forall x, y, z: M
      (x * y) * z == x * (y * z)
