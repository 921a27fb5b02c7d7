% The first so many elements of a list, and the others.
% Source: R. Bird, P. Wadler, Introduction to Functional Programming (1988).
% Surprising: to take and to drop need no condition on how long the list is.
ListTake (E, L): trait
  includes ListLength (E, L)
  introduces
    take, drop: N, L -> L
  asserts
    \forall e: E, l: L, n: N
      take(0, l) == nil;
      take(s(n), nil) == nil;
      take(s(n), cons(e, l)) == cons(e, take(n, l));
      drop(0, l) == l;
      drop(s(n), nil) == nil;
      drop(s(n), cons(e, l)) == drop(n, l)
  implies Monoid (L, __ ++ __ for __ * __, nil for unit)
    \forall e: E, k, l: L, m, n: N
      s(m) + n == s(m + n);
      0 + n == n;
      take(n, nil) == nil;
      drop(n, nil) == nil;
      take(n, l) ++ drop(n, l) == l;
      drop(m, drop(n, l)) == drop(n + m, l);
      take(n, take(n, l)) == take(n, l);
      take(length(l), l) == l;
      drop(length(l), l) == nil;
      take(length(k), k ++ l) == k;
      drop(length(k), k ++ l) == l;
      drop(n, l) = l \/ take(n, l) ~= nil;
      length(take(n, l)) + length(drop(n, l)) == length(l)
  converts take, drop
