% Functions that can be undone: they form a group.
% Source: A. Cayley, On the theory of groups (1854).
Bijection (E, F): trait
  includes Transformation (E, F)
  introduces
    inv: F -> F
  asserts
    \forall x: E, f: F
      inv(f)[f[x]] == x;
      f[inv(f)[x]] == x
  implies Group (F, same for unit)
    \forall x, y: E, f, g: F
      f[x] = f[y] == x = y;
      f * inv(f) == same;
      inv(inv(f)) == f;
      inv(f)[x] = y == x = f[y];
      inv(f * g) == inv(g) * inv(f);
      square(inv(f)) == inv(square(f))
  converts inv
