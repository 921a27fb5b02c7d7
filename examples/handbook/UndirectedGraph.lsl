% Graphs whose edges lead both ways: each path can be gone back.
% Source: D. Koenig (1936); docs/HANDBOOK.md tells the proof.
% Surprising: the way back isn't the path backwards: its last node is left out, and the first one put behind.
UndirectedGraph (V, P): trait
  includes Graph (V, P)
  introduces
    back: V, P -> P
  asserts
    \forall x, y, z: V, p: P
      edge(x, y) == edge(y, x);
      back(x, nil) == nil;
      back(x, cons(z, p)) == back(z, p) ++ single(x)
  implies
    \forall x, y, z: V, p, q, r: P, m, n: N
      s(m) + n == s(m + n);
      m + n == n + m;
      0 + n == n;
      p ++ nil == p;
      (p ++ q) ++ r == p ++ (q ++ r);
      (isPath(x, p, y) /\ isPath(y, q, z)) => isPath(x, p ++ q, z);
      isPath(x, p, y) => isPath(y, back(x, p), x);
      length(p ++ q) == length(p) + length(q);
      length(back(x, p)) == length(p);
      back(x, p ++ q) == back(end(x, p), q) ++ back(x, p);
      end(x, p ++ q) == end(end(x, p), q);
      end(end(x, p), back(x, p)) == x;
      back(end(x, p), back(x, p)) == p;
      isPath(x, p, y) => isPath(x, p ++ back(x, p), x)
  converts back
