% Quotients and remainders of natural numbers.
% Source: Euclid, Elements, book VII; Guttag and Horning (1993), appendix A.
% Surprising: both go by one number after the other, so that no recursion has to be shown to end.
NaturalDivision: trait
  includes NaturalProduct, NaturalOrder
  introduces
    mod, div: N, N -> N
  asserts
    \forall m, n: N
      div(0, n) == 0;
      div(s(m), n) == if s(mod(m, n)) = n then s(div(m, n)) else div(m, n);
      mod(0, n) == 0;
      mod(s(m), n) == if s(mod(m, n)) = n then 0 else s(mod(m, n))
  implies
    \forall m, n: N
      0 + n == n;
      s(m) + n == s(m + n);
      n <= 0 == n = 0;
      (n <= s(m) /\ s(m) ~= n) => n <= m;
      n ~= 0 => mod(m, n) < n;
      (n * div(m, n)) + mod(m, n) == m;
      mod(m, s(0)) == 0;
      div(m, s(0)) == m;
      mod(m, 0) == m;
      div(m, 0) == 0
  converts mod, div
