% An operation with a unit. There is one unit at most, so it is determined by what is said of it.
Monoid (M): trait
  introduces
    __ * __: M, M -> M
    unit: -> M
  asserts
    \forall x, y, z: M
      (x * y) * z == x * (y * z);
      x * unit == x;
      unit * x == x
  converts unit
