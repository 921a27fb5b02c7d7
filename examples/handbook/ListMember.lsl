% What stands in a list, and how lists are contained in each other by it.
% Source: Guttag and Horning (1993), appendix A ("MemberOp").
ListMember (E, L): trait
  includes ListReverse (E, L)
  introduces
    __ \in __: E, L -> Bool
    without: L, E -> L
    __ \subseteq __: L, L -> Bool
  asserts
    \forall d, e: E, k, l: L
      ~(e \in nil);
      d \in cons(e, l) == d = e \/ d \in l;
      without(nil, d) == nil;
      without(cons(e, l), d) == if e = d then without(l, d) else cons(e, without(l, d));
      nil \subseteq l;
      cons(e, k) \subseteq l == e \in l /\ k \subseteq l
  implies
    \forall c, d, e: E, j, k, l: L
      e \in single(d) == e = d;
      e \in (k ++ l) == e \in k \/ e \in l;
      e \in reverse(l) == e \in l;
      e \in onto(k, l) == e \in k \/ e \in l;
      ~(d \in without(l, d));
      c \in without(l, d) == c \in l /\ c ~= d;
      ~(d \in l) => without(l, d) = l;
      without(without(l, d), d) == without(l, d);
      without(without(l, d), c) == without(without(l, c), d);
      without(k ++ l, d) == without(k, d) ++ without(l, d);
      (k \subseteq l /\ e \in k) => e \in l;
      k \subseteq l => k \subseteq cons(e, l);
      l \subseteq l;
      k \subseteq (k ++ l);
      (k ++ l) \subseteq j == k \subseteq j /\ l \subseteq j;
      (j \subseteq k /\ k \subseteq l) => j \subseteq l
  converts \in, without, \subseteq
