% The equivalence of a preorder: what is at most each other.
% Source: F. Hausdorff, Grundzuege der Mengenlehre (1914); Guttag and Horning (1993), appendix A.
PreorderEquivalence (E): trait
  includes Preorder (E)
  introduces
    __ \eqv __: E, E -> Bool
  asserts
    \forall x, y: E
      x \eqv y == x <= y /\ y <= x
  implies Equivalence (E)
    \forall x, y, z: E
      x \eqv y => x <= y;
      (x \eqv y /\ y <= z) => x <= z;
      (x <= y /\ y \eqv z) => x <= z
  converts \eqv
