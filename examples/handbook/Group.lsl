% Groups, by a unit and inverses on the left alone.
% Source: W. Burnside, Theory of Groups (1897); D. Knuth, P. Bendix, Simple word problems in universal algebras (1970).
% Surprising: what is stated of the left holds on the right.
Group (G): trait
  includes Semigroup (G)
  introduces
    unit: -> G
    inv: G -> G
  asserts
    \forall x: G
      unit * x == x;
      inv(x) * x == unit
  implies Monoid (G)
    \forall x, y, z: G
      inv(x) * (x * y) == y;
      inv(inv(x)) == x;
      x * inv(x) == unit;
      x * (inv(x) * y) == y;
      inv(unit) == unit;
      inv(x * y) == inv(y) * inv(x);
      (z * x) = (z * y) == x = y;
      (x * z) = (y * z) == x = y;
      inv(x) = inv(y) == x = y;
      (x * y) = unit == y = inv(x);
      (x * y) = z == x = (z * inv(y));
      (x * x) = x == x = unit
  converts unit, inv
