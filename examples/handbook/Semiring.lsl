% Addition and multiplication without differences, and multiplication distributes over addition.
% Source: H. Vandiver, Note on a simple type of algebra (1934); Guttag and Horning (1993), appendix A ("SemiRing").
Semiring (S): trait
  includes CommutativeMonoid (S, __ + __ for __ * __, 0 for unit), Monoid (S, 1 for unit)
  asserts
    \forall x, y, z: S
      0 * x == 0;
      x * 0 == 0;
      x * (y + z) == (x * y) + (x * z);
      (x + y) * z == (x * z) + (y * z)
  implies
    \forall w, x, y, z: S
      x + (y + z) == y + (x + z);
      (w + x) + (y + z) == (w + y) + (x + z);
      (x + 1) * y == (x * y) + y;
      x * (y + 1) == (x * y) + x;
      (w + x) * (y + z) == ((w * y) + (w * z)) + ((x * y) + (x * z))
