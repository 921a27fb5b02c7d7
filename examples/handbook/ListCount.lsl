% How often something stands in a list; what permutations keep.
% Source: R. Boyer, J. Moore, A Computational Logic (1979).
ListCount (E, L): trait
  includes ListReverse (E, L), Natural
  introduces
    count: E, L -> N
    __ \in __: E, L -> Bool
  asserts
    \forall d, e: E, l: L
      ~(e \in nil);
      d \in cons(e, l) == d = e \/ d \in l;
      count(d, nil) == 0;
      count(d, cons(e, l)) == if d = e then s(count(d, l)) else count(d, l)
  implies
    \forall d, e: E, k, l: L, m, n: N
      s(m) + n == s(m + n);
      m + n == n + m;
      0 + n == n;
      count(e, single(e)) == 1;
      count(e, k ++ l) == count(e, k) + count(e, l);
      count(e, k ++ l) == count(e, l ++ k);
      count(e, reverse(l)) == count(e, l);
      e \in l == count(e, l) ~= 0;
      ~(e \in l) => count(e, l) = 0
  converts count, \in
