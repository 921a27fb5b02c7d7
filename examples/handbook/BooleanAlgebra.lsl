% Distributive lattices with a least and a greatest element, and complements.
% Source: E. Huntington, Sets of independent postulates for the algebra of logic (1904).
% Surprising: complements are determined, so that the laws of De Morgan follow.
BooleanAlgebra (L): trait
  includes DistributiveLattice (L)
  introduces
    bottom, top: -> L
    - __: L -> L
  asserts
    \forall x: L
      x \join bottom == x;
      x \meet top == x;
      x \meet (-x) == bottom;
      x \join (-x) == top
  implies
    \forall x, y, z: L
      x \meet x == x;
      x \join x == x;
      x \join (y \meet x) == x;
      (x \meet y) \join y == y;
      (x \meet y) \join x == x;
      x \join ((x \meet y) \join z) == x \join z;
      x \join ((y \meet x) \join z) == x \join z;
      (y \join z) \meet x == (y \meet x) \join (z \meet x);
      x \join (y \meet z) == (x \join y) \meet (x \join z);
      ((x \meet y) = (x \meet z) /\ (x \join y) = (x \join z)) => y = z;
      bottom \join x == x;
      bottom \meet x == bottom;
      x \meet bottom == bottom;
      top \meet x == x;
      top \join x == top;
      x \join top == top;
      (-x) \meet x == bottom;
      (-x) \join x == top;
      ((x \meet y) = bottom /\ (x \join y) = top) => y = (-x);
      -bottom == top;
      -top == bottom;
      -(-x) == x;
      (-x) = (-y) => x = y;
      x = (-x) => bottom = top;
      (y \meet x) \join (-x) == y \join (-x);
      x \join (y \join (-x)) == top;
      x \meet (y \meet (-x)) == bottom;
      -(x \meet y) == (-y) \join (-x);
      -(x \join y) == (-y) \meet (-x)
  converts - __
