% The less and the greater of two elements.
% Source: Guttag and Horning (1993), appendix A ("MinMax").
% Surprising: each of the two distributes over the other.
MinMax (E): trait
  assumes TotalOrder (E)
  introduces
    min, max: E, E -> E
  asserts
    \forall x, y: E
      min(x, y) == if x <= y then x else y;
      max(x, y) == if x <= y then y else x
  implies
    \forall x, y, z: E
      min(x, y) <= x;
      min(x, y) <= y;
      x <= max(x, y);
      y <= max(x, y);
      z <= min(x, y) == z <= x /\ z <= y;
      max(x, y) <= z == x <= z /\ y <= z;
      min(x, x) == x;
      max(x, x) == x;
      min(x, y) == min(y, x);
      max(x, y) == max(y, x);
      min(x, min(y, z)) == min(min(x, y), z);
      max(x, max(y, z)) == max(max(x, y), z);
      min(x, max(x, y)) == x;
      max(x, min(x, y)) == x;
      min(x, max(y, z)) == max(min(x, y), min(x, z));
      max(x, min(y, z)) == min(max(x, y), max(x, z));
      x <= y == min(x, y) = x
  converts min, max
