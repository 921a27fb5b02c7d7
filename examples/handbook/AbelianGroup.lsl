% Groups in which the order doesn't matter.
% Source: Guttag and Horning (1993), appendix A.
AbelianGroup (G): trait
  includes Group (G)
  asserts
    \forall x, y: G
      x * y == y * x
  implies CommutativeMonoid (G)
    \forall x, y, z: G
      x * inv(x) == unit;
      inv(x) * (x * y) == y;
      x * (y * z) == y * (x * z);
      inv(inv(x)) == x;
      x * (inv(x) * y) == y;
      x * (y * inv(x)) == y;
      inv(x * y) == inv(x) * inv(y)
