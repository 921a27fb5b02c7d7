% A monoid in which the order doesn't matter either.
% Source: Guttag and Horning (1993), appendix A ("AbelianMonoid").
CommutativeMonoid (S): trait
  includes Monoid (S)
  asserts
    \forall x, y: S
      x * y == y * x
  implies
    \forall w, x, y, z: S
      x * (y * z) == y * (x * z);
      (x * y) * z == (x * z) * y;
      x * (y * z) == z * (y * x);
      (w * x) * (y * z) == (w * y) * (x * z)
