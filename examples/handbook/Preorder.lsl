% Preorders on E: what is at most itself, and at most what is above.
% Source: J. Guttag, J. Horning, Larch: Languages and Tools for Formal Specification (1993), appendix A.
Preorder (E): trait
  introduces
    __ <= __: E, E -> Bool
  asserts
    \forall x, y, z: E
      x <= x;
      (x <= y /\ y <= z) => x <= z
  implies
    \forall w, x, y, z: E
      (w <= x /\ x <= y /\ y <= z) => w <= z;
      (x <= y /\ ~(x <= z)) => ~(y <= z);
      (y <= z /\ ~(x <= z)) => ~(x <= y)
