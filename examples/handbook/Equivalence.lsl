% Equivalences on E.
% Source: Guttag and Horning (1993), appendix A; Euclid's first common notion: what is equal to one is equal.
% Surprising: reflexivity with Euclid's notion gives symmetry.
Equivalence (E): trait
  introduces
    __ \eqv __: E, E -> Bool
  asserts
    \forall x, y, z: E
      x \eqv x;
      (x \eqv z /\ y \eqv z) => x \eqv y
  implies
    \forall x, y, z: E
      x \eqv y => y \eqv x;
      x \eqv y == y \eqv x;
      (x \eqv y /\ y \eqv z) => x \eqv z;
      x \eqv y => (x \eqv z <=> y \eqv z)
