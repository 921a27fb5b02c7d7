% Total orders on E: any two elements can be compared.
% Source: G. Cantor (1895); Guttag and Horning (1993), appendix A.
% Surprising: what isn't at most another one is above it, and that is transitive too.
TotalOrder (E): trait
  includes PartialOrder (E)
  asserts
    \forall x, y: E
      x <= y \/ y <= x
  implies
    \forall x, y, z: E
      ~(x <= y) => y <= x;
      ~(x <= y) => x ~= y;
      (~(x <= y) /\ ~(y <= z)) => ~(x <= z);
      (x <= z /\ ~(y <= z)) => ~(y <= x);
      (z <= x /\ ~(z <= y)) => y <= x
