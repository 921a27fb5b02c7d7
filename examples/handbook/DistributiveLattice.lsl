% Lattices in which meets distribute over joins.
% Source: G. Birkhoff, Lattice Theory (1940).
% Surprising: joins then distribute over meets; and what has the same meet and join with one element is the same.
DistributiveLattice (L): trait
  includes Lattice (L)
  asserts
    \forall x, y, z: L
      x \meet (y \join z) == (x \meet y) \join (x \meet z)
  implies
    \forall x, y, z: L
      x \meet x == x;
      x \join x == x;
      x \join (y \meet x) == x;
      (x \meet y) \join y == y;
      (x \meet y) \join x == x;
      x \join ((x \meet y) \join z) == x \join z;
      x \join ((y \meet x) \join z) == x \join z;
      (y \join z) \meet x == (y \meet x) \join (z \meet x);
      x \join (y \meet z) == (x \join y) \meet (x \join z);
      ((x \meet y) = (x \meet z) /\ (x \join y) = (x \join z)) => y = z
