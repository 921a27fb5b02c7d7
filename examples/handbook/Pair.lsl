% Pairs P of an A and a B, and turning them round.
% Source: Guttag and Horning (1993), appendix A ("Pair").
Pair (A, B): trait
  P tuple of first: A, second: B
  Q tuple of second: B, first: A
  introduces
    swap: P -> Q
    back: Q -> P
  asserts
    \forall p: P, q: Q
      swap(p) == [p.second, p.first];
      back(q) == [q.first, q.second]
  implies
    \forall a, c: A, b, d: B, p, r: P, q: Q
      [a, b]: P = [c, d] == a = c /\ b = d;
      [p.first, p.second] == p;
      p = r == p.first = r.first /\ p.second = r.second;
      set_first(set_first(p, a), c) == set_first(p, c);
      set_second(set_first(p, a), b) == [a, b];
      set_first(p, p.first) == p;
      set_first(p, a).second == p.second;
      back(swap(p)) == p;
      swap(back(q)) == q;
      swap(p) = q => back(q) = p;
      swap(p).first == p.first
  converts swap, back
