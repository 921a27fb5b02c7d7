% A commutative monoid in which what was put on both sides can be taken away.
% Source: R. Dedekind, Was sind und was sollen die Zahlen (1888), of addition.
CancellativeMonoid (S): trait
  includes CommutativeMonoid (S)
  asserts
    \forall x, y, z: S
      (z * x) = (z * y) == x = y
  implies
    \forall x, y, z: S
      (x * z) = (y * z) == x = y;
      (x * y) = x == y = unit;
      (x * y) = y == x = unit
