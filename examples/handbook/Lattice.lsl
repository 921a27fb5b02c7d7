% Two semilattices in one, which absorb each other.
% Source: R. Dedekind, Ueber Zerlegungen von Zahlen (1897); G. Birkhoff, Lattice Theory (1940).
% Surprising: that each element is its own square follows from absorption.
Lattice (L): trait
  includes Semigroup (L, __ \meet __ for __ * __), Semigroup (L, __ \join __ for __ * __)
  introduces
    __ <= __: L, L -> Bool
  asserts
    \forall x, y: L
      x \meet y == y \meet x;
      x \join y == y \join x;
      x \meet (x \join y) == x;
      x \join (x \meet y) == x;
      x <= y == (x \meet y) = x
  implies Semilattice (L)
    \forall x, y, z: L
      x \join x == x;
      x <= y == (x \join y) = y;
      (x \meet y) <= x;
      (x \meet y) <= y;
      x <= (x \join y);
      y <= (x \join y);
      (z <= x /\ z <= y) => z <= (x \meet y);
      (x <= z /\ y <= z) => (x \join y) <= z;
      (x \meet y) = (x \join y) == x = y
  converts <=
