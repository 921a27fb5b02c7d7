% Strict orders on E: nothing is below itself.
% Source: Guttag and Horning (1993), appendix A.
StrictOrder (E): trait
  introduces
    __ < __: E, E -> Bool
  asserts
    \forall x, y, z: E
      ~(x < x);
      (x < y /\ y < z) => x < z
  implies
    \forall x, y, z: E
      x < y => ~(y < x);
      x < y => x ~= y;
      (x < y /\ y < z) => ~(z < x)
