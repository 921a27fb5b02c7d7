% Groups in which each element is its own inverse.
% Source: Burnside (1897); a first exercise of books on groups.
% Surprising: they are abelian.
InvolutiveGroup (G): trait
  includes Group (G)
  asserts
    \forall x: G
      x * x == unit
  implies AbelianGroup (G)
    \forall x, y: G
      inv(x) == x;
      x * (x * y) == y;
      x * (y * x) == y
