% A commutative semigroup in which each element is its own square, and the order that it makes.
% Source: G. Birkhoff, Lattice Theory (1940); Guttag and Horning (1993), appendix A.
% Surprising: the order needs no axiom of its own.
Semilattice (L): trait
  includes Semigroup (L, __ \meet __ for __ * __)
  introduces
    __ <= __: L, L -> Bool
  asserts
    \forall x, y: L
      x \meet y == y \meet x;
      x \meet x == x;
      x <= y == (x \meet y) = x
  implies PartialOrder (L)
    \forall x, y, z: L
      x \meet (x \meet y) == x \meet y;
      x \meet (y \meet z) == y \meet (x \meet z);
      (x \meet y) <= x;
      (x \meet y) <= y;
      (z <= x /\ z <= y) => z <= (x \meet y);
      x <= y => (x \meet z) <= (y \meet z)
  converts <=
