% A total order is a distributive lattice: the less of two elements is their meet, the greater one their join.
% Source: G. Birkhoff, Lattice Theory (1940).
% Surprising: a whole trait is claimed by one line, and nothing is stated.
OrderLattice (E): trait
  assumes TotalOrder (E)
  includes MinMax (E)
  implies DistributiveLattice (E, min for __ \meet __, max for __ \join __)
    \forall x, y, z: E
      min(x, y) = x \/ min(x, y) = y;
      (z <= x /\ z <= y) => z <= min(x, y)
