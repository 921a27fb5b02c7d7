% What is done to each element of a list.
% Source: McCarthy (1960), "maplist"; Bird and Wadler (1988).
% Surprising: it goes with every other operator of lists, and nothing has to be known of what is done.
ListMap (A, B, LA, LB): trait
  includes ListLength (A, LA), ListLength (B, LB)
  introduces
    f: A -> B
    map: LA -> LB
  asserts
    \forall a: A, l: LA
      map(nil) == nil;
      map(cons(a, l)) == cons(f(a), map(l))
  implies Monoid (LB, __ ++ __ for __ * __, nil for unit)
    \forall a: A, b: B, k, l: LA
      map(single(a)) == single(f(a));
      map(k ++ l) == map(k) ++ map(l);
      map(reverse(l)) == reverse(map(l));
      map(onto(k, l)) == onto(map(k), map(l));
      length(map(l)) == length(l);
      isEmpty(map(l)) == isEmpty(l);
      ~isEmpty(l) => head(map(l)) = f(head(l));
      ~isEmpty(l) => tail(map(l)) = map(tail(l))
  converts map
