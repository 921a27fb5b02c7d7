% Pairs in the order in which both parts have to agree.
% Source: G. Birkhoff, Lattice Theory (1940).
ProductOrder (A, B): trait
  assumes PartialOrder (A), PartialOrder (B)
  Pair tuple of first: A, second: B
  introduces
    __ <= __: Pair, Pair -> Bool
  asserts
    \forall p, q: Pair
      p <= q == p.first <= q.first /\ p.second <= q.second
  implies PartialOrder (Pair)
    \forall a, c: A, b, d: B, p, q: Pair
      [a, b] <= [a, d] == b <= d;
      [a, b] <= [c, b] == a <= c;
      [a, b] <= [c, d] == [a, b] <= [c, b] /\ [c, b] <= [c, d]
  converts __ <= __: Pair, Pair -> Bool
