% How long lists are.
% Source: Guttag and Horning (1993), appendix A ("List", "String").
ListLength (E, L): trait
  includes ListReverse (E, L), Natural
  introduces
    length: L -> N
  asserts
    \forall e: E, l: L
      length(nil) == 0;
      length(cons(e, l)) == s(length(l))
  implies
    \forall e: E, k, l: L, m, n: N
      s(m) + n == s(m + n);
      m + n == n + m;
      0 + n == n;
      length(single(e)) == 1;
      length(k ++ l) == length(k) + length(l);
      length(k ++ l) == length(l ++ k);
      length(reverse(l)) == length(l);
      length(l) = 0 == isEmpty(l);
      length(onto(k, l)) == length(k) + length(l);
      ~isEmpty(l) => length(l) = s(length(tail(l)))
  converts length
