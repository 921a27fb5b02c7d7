% A semigroup with a unit.
% Source: Guttag and Horning (1993), appendix A.
% Surprising: the unit is determined, though no equation says which element it is.
Monoid (S): trait
  includes Semigroup (S)
  introduces
    unit: -> S
  asserts
    \forall x: S
      unit * x == x;
      x * unit == x
  implies
    \forall x, y: S
      (x * unit) * y == x * y;
      unit * unit == unit
  converts unit
