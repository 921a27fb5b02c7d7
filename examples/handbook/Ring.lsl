% Rings with a unit.
% Source: E. Noether, Idealtheorie in Ringbereichen (1921); Guttag and Horning (1993), appendix A.
% Surprising: that nothing times anything is nothing isn't stated; it follows from distributivity.
Ring (R): trait
  includes AbelianGroup (R, __ + __ for __ * __, 0 for unit, - __ for inv), Monoid (R, 1 for unit)
  introduces
    __ - __: R, R -> R
  asserts
    \forall x, y, z: R
      x * (y + z) == (x * y) + (x * z);
      (x + y) * z == (x * z) + (y * z);
      x - y == x + (-y)
  implies
    \forall x, y, z: R
      x + 0 == x;
      (-x) + (x + y) == y;
      x + (-x) == 0;
      -0 == 0;
      -(-x) == x;
      (z + x) = (z + y) == x = y;
      x * 0 == 0;
      0 * x == 0;
      x * (-y) == -(x * y);
      (-x) * y == -(x * y);
      (-x) * (-y) == x * y;
      (-1) * x == -x;
      x - x == 0;
      x - 0 == x;
      x * (y - z) == (x * y) - (x * z);
      (x - y) * z == (x * z) - (y * z)
  converts __ - __
