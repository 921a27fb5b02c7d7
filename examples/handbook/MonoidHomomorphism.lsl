% Functions that keep the operation and the unit of a monoid, and two of them one behind the other.
% Source: Noether (1921); N. Bourbaki, Algebre (1942).
MonoidHomomorphism (A, B, C): trait
  includes Monoid (A), Monoid (B), Monoid (C)
  introduces
    f: A -> B
    g: B -> C
    gf: A -> C
  asserts
    \forall x, y: A, u, v: B
      f(x * y) == f(x) * f(y);
      f(unit) == unit;
      g(u * v) == g(u) * g(v);
      g(unit) == unit;
      gf(x) == g(f(x))
  implies
    \forall x, y, z: A
      gf(x * y) == gf(x) * gf(y);
      gf(unit) == unit;
      f(x * (y * z)) == (f(x) * f(y)) * f(z);
      (x * y) = unit => (f(x) * f(y)) = unit
  converts gf
