% The elements of a list that have a property, and the others.
% Source: Bird and Wadler (1988).
ListFilter (E, L): trait
  includes ListLength (E, L)
  introduces
    has: E -> Bool
    filter, others: L -> L
    all, any: L -> Bool
  asserts
    \forall e: E, l: L
      filter(nil) == nil;
      filter(cons(e, l)) == if has(e) then cons(e, filter(l)) else filter(l);
      others(nil) == nil;
      others(cons(e, l)) == if has(e) then others(l) else cons(e, others(l));
      all(nil);
      all(cons(e, l)) == has(e) /\ all(l);
      any(l) == ~isEmpty(filter(l))
  implies Monoid (L, __ ++ __ for __ * __, nil for unit)
    \forall e: E, k, l: L, m, n: N
      s(m) + n == s(m + n);
      filter(k ++ l) == filter(k) ++ filter(l);
      filter(reverse(l)) == reverse(filter(l));
      filter(filter(l)) == filter(l);
      filter(others(l)) == nil;
      all(filter(l));
      all(k ++ l) == all(k) /\ all(l);
      all(l) => filter(l) = l;
      all(l) => others(l) = nil;
      any(cons(e, l)) == has(e) \/ any(l);
      length(filter(l)) + length(others(l)) == length(l)
  converts filter, others, all, any
