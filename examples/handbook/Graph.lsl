% Directed graphs with paths: a path is a list of the nodes that one comes to.
% Source: D. Koenig, Theorie der endlichen und unendlichen Graphen (1936); Guttag and Horning (1993), appendix A.
% Surprising: without a quantifier, that nodes are connected is said by the path that connects them.
Graph (V, P): trait
  includes ListLength (V, P)
  introduces
    edge: V, V -> Bool
    isPath: V, P, V -> Bool
    end: V, P -> V
  asserts
    \forall x, y, z: V, p: P
      isPath(x, nil, y) == x = y;
      isPath(x, cons(z, p), y) == edge(x, z) /\ isPath(z, p, y);
      end(x, nil) == x;
      end(x, cons(z, p)) == end(z, p)
  implies
    \forall x, y, z: V, p, q: P, m, n: N
      isPath(x, nil, x);
      isPath(x, single(y), y) == edge(x, y);
      (isPath(x, p, y) /\ isPath(y, q, z)) => isPath(x, p ++ q, z);
      isPath(x, p, y) => end(x, p) = y;
      isPath(x, p ++ q, z) == isPath(x, p, end(x, p)) /\ isPath(end(x, p), q, z);
      end(x, p ++ q) == end(end(x, p), q);
      end(x, p ++ single(y)) == y;
      (isPath(x, p, y) /\ isPath(x, p, z)) => y = z;
      (isPath(x, p, y) /\ edge(y, z)) => isPath(x, p ++ single(z), z);
      (isPath(x, p, x) /\ isPath(x, q, x)) => isPath(x, p ++ q, x)
  converts isPath, end
