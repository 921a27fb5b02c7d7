% A semiring whose multiplication is commutative too.
% Source: Guttag and Horning (1993), appendix A.
CommutativeSemiring (S): trait
  includes Semiring (S), CommutativeMonoid (S, 1 for unit)
  implies
    \forall x, y, z: S
      x + (y + z) == y + (x + z);
      x * (y * z) == y * (x * z);
      x * (y + z) == (y * x) + (z * x);
      (x + y) * (x + y) == (x * x) + ((x * y) + ((x * y) + (y * y)))
