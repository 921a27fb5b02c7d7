% Functions between preorders that keep the order, one behind the other.
% Source: G. Birkhoff, Lattice Theory (1940).
Monotone (A, B, C): trait
  includes Preorder (A), Preorder (B), Preorder (C)
  introduces
    f: A -> B
    g: B -> C
    gf: A -> C
  asserts
    \forall x, y: A, u, v: B
      x <= y => f(x) <= f(y);
      u <= v => g(u) <= g(v);
      gf(x) == g(f(x))
  implies
    \forall x, y, z: A, u, v: B
      x <= y => gf(x) <= gf(y);
      (x <= y /\ y <= z) => f(x) <= f(z);
      (u <= v /\ ~(g(u) <= g(f(x)))) => ~(v <= f(x));
      ~(gf(x) <= gf(y)) => ~(x <= y)
  converts gf
