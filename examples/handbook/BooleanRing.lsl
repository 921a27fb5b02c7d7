% Rings in which each element is its own square.
% Source: M. Stone, The theory of representations for Boolean algebras (1936).
% Surprising: they are commutative, and each element is its own negative.
BooleanRing (R): trait
  includes Ring (R)
  asserts
    \forall x: R
      x * x == x
  implies
    \forall x, y, z: R
      x + 0 == x;
      (-x) + (x + y) == y;
      (z + x) = (z + y) == x = y;
      x + x == 0;
      x + (x + y) == y;
      (x + z) = (y + z) == x = y;
      -x == x;
      (x + y) = 0 == x = y;
      x * 0 == 0;
      0 * x == 0;
      (y * x) + (x * y) == 0;
      x * y == y * x;
      x * (x * y) == x * y;
      x * (1 + x) == 0
