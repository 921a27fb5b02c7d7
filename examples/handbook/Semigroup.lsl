% An operation for which parentheses don't matter.
% Source: Guttag and Horning (1993), appendix A.
Semigroup (S): trait
  introduces
    __ * __: S, S -> S
  asserts
    \forall x, y, z: S
      (x * y) * z == x * (y * z)
  implies
    \forall w, x, y, z: S
      (w * x) * (y * z) == w * ((x * y) * z);
      ((w * x) * y) * z == w * (x * (y * z))
