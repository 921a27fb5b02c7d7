% Functions that keep the operation of a group, and what they send to the unit.
% Source: Noether (1921); N. Bourbaki, Algebre (1942).
% Surprising: that units and inverses are kept needn't be asked; and the kernel tells which values are the same.
GroupHomomorphism (A, B): trait
  includes Group (A), Group (B)
  introduces
    f: A -> B
    inKernel: A -> Bool
  asserts
    \forall x, y: A
      f(x * y) == f(x) * f(y);
      inKernel(x) == f(x) = unit
  implies Monoid (A), Monoid (B)
    \forall x, y: A, u, v: B
      inv(u) * (u * v) == v;
      x * inv(x) == unit;
      u * inv(u) == unit;
      u * (inv(u) * v) == v;
      (u * u) = u == u = unit;
      f(unit) == unit;
      (u * v) = unit == v = inv(u);
      f(inv(x)) == inv(f(x));
      inKernel(unit);
      (inKernel(x) /\ inKernel(y)) => inKernel(x * y);
      inKernel(x) => inKernel(inv(x));
      inKernel(x) => inKernel(y * (x * inv(y)));
      f(x) = f(y) == inKernel(x * inv(y))
  converts inKernel
