% Which lists begin which: strings in the order of beginnings.
% Source: Guttag and Horning (1993), appendix A ("String").
% Surprising: to be a beginning is an order, and what is left behind it is determined.
ListPrefix (E, L): trait
  includes ListAppend (E, L)
  introduces
    isPrefix: L, L -> Bool
    rest: L, L -> L
  asserts
    \forall d, e: E, k, l: L
      isPrefix(nil, l);
      ~isPrefix(cons(e, l), nil);
      isPrefix(cons(d, k), cons(e, l)) == d = e /\ isPrefix(k, l);
      rest(nil, l) == l;
      rest(cons(d, k), nil) == nil;
      rest(cons(d, k), cons(e, l)) == rest(k, l)
  implies PartialOrder (L, isPrefix for __ <= __)
    \forall e: E, j, k, l: L
      isPrefix(k, k ++ l);
      isPrefix(k ++ j, k ++ l) == isPrefix(j, l);
      rest(k, k ++ l) == l;
      isPrefix(k, l) => (k ++ rest(k, l)) = l;
      isPrefix(k, nil) == isEmpty(k);
      isPrefix(k, l) => isPrefix(k, l ++ j)
  converts isPrefix, rest
