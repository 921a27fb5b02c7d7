% Lists from behind: the definition, and the way of doing it in one pass.
% Source: Burstall (1969); Boyer and Moore, A Computational Logic (1979).
% Surprising: the way with an accumulator has to be said of any accumulator, or no induction goes through.
ListReverse (E, L): trait
  includes ListAppend (E, L)
  introduces
    reverse: L -> L
    onto: L, L -> L
    last: L -> E
    isPalindrome: L -> Bool
  asserts
    \forall e: E, k, l: L
      reverse(nil) == nil;
      reverse(cons(e, l)) == reverse(l) ++ single(e);
      onto(nil, k) == k;
      onto(cons(e, l), k) == onto(l, cons(e, k));
      last(l) == head(reverse(l));
      isPalindrome(l) == reverse(l) = l
  implies Monoid (L, __ ++ __ for __ * __, nil for unit)
    \forall d, e: E, k, l: L
      nil ~= cons(e, l);
      cons(d, k) = cons(e, l) == d = e /\ k = l;
      reverse(single(e)) == single(e);
      reverse(k ++ l) == reverse(l) ++ reverse(k);
      reverse(reverse(l)) == l;
      reverse(k) = reverse(l) == k = l;
      reverse(l) = nil == l = nil;
      onto(l, k) == reverse(l) ++ k;
      reverse(l) == onto(l, nil);
      last(l ++ single(e)) == e;
      last(reverse(l)) == head(l);
      isPalindrome(l ++ reverse(l));
      isPalindrome(l) => isPalindrome(reverse(l))
  converts reverse, onto, isPalindrome
