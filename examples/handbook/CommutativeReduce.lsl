% What a list comes to where the order doesn't matter.
% Source: R. Bird, The algebra of programs (1987).
CommutativeReduce (E, L): trait
  assumes CommutativeMonoid (E)
  includes Reduce (E, L)
  implies
    \forall e: E, k, l: L
      e * (reduce(k) * reduce(l)) == reduce(k) * (e * reduce(l));
      reduce(k ++ l) == reduce(k) * reduce(l);
      reduce(k ++ l) == reduce(l ++ k);
      reduce(reverse(l)) == reduce(l);
      reduce(k ++ cons(e, l)) == e * reduce(k ++ l)
