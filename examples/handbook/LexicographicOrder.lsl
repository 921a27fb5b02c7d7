% Pairs in the order of dictionaries: the first parts decide, and the second ones where these are equal.
% Source: F. Hausdorff, Grundzuege der Mengenlehre (1914); Guttag and Horning (1993), appendix A ("LexicographicOrder").
LexicographicOrder (A, B): trait
  assumes TotalOrder (A), TotalOrder (B)
  Pair tuple of first: A, second: B
  introduces
    __ <= __: Pair, Pair -> Bool
  asserts
    \forall p, q: Pair
      p <= q == if p.first = q.first then p.second <= q.second else p.first <= q.first
  implies TotalOrder (Pair)
    \forall a, c: A, b, d: B, p, q: Pair
      [a, b] <= [a, d] == b <= d;
      [a, b] <= [c, b] == a <= c;
      p <= q => p.first <= q.first;
      (p.first <= q.first /\ p.second <= q.second) => p <= q
  converts __ <= __: Pair, Pair -> Bool
