% What a list comes to, where elements can be put together: sums, products, the least, and so on.
% Source: K. Iverson, A Programming Language (1962); R. Bird, The algebra of programs (1987).
% Surprising: that elements form a monoid is used by the claims, and owed by whoever says which operation is meant.
Reduce (E, L): trait
  assumes Monoid (E)
  includes ListReverse (E, L)
  introduces
    reduce: L -> E
    reduceOnto: E, L -> E
  asserts
    \forall a, e: E, l: L
      reduce(nil) == unit;
      reduce(cons(e, l)) == e * reduce(l);
      reduceOnto(a, nil) == a;
      reduceOnto(a, cons(e, l)) == reduceOnto(a * e, l)
  implies
    \forall a, e: E, k, l: L
      reduce(single(e)) == e;
      reduce(k ++ l) == reduce(k) * reduce(l);
      reduceOnto(a, l) == a * reduce(l);
      reduce(l) == reduceOnto(unit, l);
      reduceOnto(a, k ++ l) == reduceOnto(reduceOnto(a, k), l)
  converts reduce, reduceOnto
