% Two monoids on one sort: references give the operators of one of them other names, and both are taken over at once.
Ring (R): trait
  includes Monoid (R, 1 for unit), Monoid (R, + for *, 0 for unit)
  introduces
    - __: R -> R
  asserts
    \forall x, y, z: R
      x + (- x) == 0;
      x + y == y + x;
      x * (y + z) == (x * y) + (x * z);
      (x + y) * z == (x * z) + (y * z)
  implies
    \forall x: R
      x * 0 == 0;
      0 * x == 0
  % What is added to x to make 0 is one value at most.
  converts - __
