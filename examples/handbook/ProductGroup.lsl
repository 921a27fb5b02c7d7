% Pairs of elements of two groups, by parts.
% Source: Burnside (1897); Bourbaki, Algebre (1942).
ProductGroup (A, B): trait
  assumes Group (A), Group (B)
  Pair tuple of first: A, second: B
  introduces
    __ * __: Pair, Pair -> Pair
    unit: -> Pair
    inv: Pair -> Pair
  asserts
    \forall p, q: Pair
      p * q == [p.first * q.first, p.second * q.second];
      unit == [unit, unit];
      inv(p) == [inv(p.first), inv(p.second)]
  implies Group (Pair)
    \forall a, c: A, b, d: B
      [a, b] * [c, d] == [a * c, b * d];
      [a, unit] * [unit, b] == [a * unit, b];
      inv([a, b]) == [inv(a), inv(b)]
  converts __ * __: Pair, Pair -> Pair, unit: -> Pair, inv: Pair -> Pair
