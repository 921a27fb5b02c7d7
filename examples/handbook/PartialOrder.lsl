% Partial orders on E.
% Source: F. Hausdorff, Grundzuege der Mengenlehre (1914); Guttag and Horning (1993), appendix A.
% Surprising: equality can be said by the order alone.
PartialOrder (E): trait
  includes Preorder (E)
  asserts
    \forall x, y: E
      (x <= y /\ y <= x) => x = y
  implies
    \forall x, y, z: E
      (x <= y /\ y <= x) == x = y;
      (x <= y /\ x ~= y) => ~(y <= x);
      (x <= y /\ y <= z /\ z <= x) => x = z
