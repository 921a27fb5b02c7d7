% The order of the natural numbers, the operators that go with it, the less and the greater of two.
% Source: Dedekind (1888); Guttag and Horning (1993), appendix A.
NaturalOrder: trait
  includes Natural, OrderOperators (N), MinMax (N)
  asserts
    \forall m, n: N
      0 <= n;
      ~(s(m) <= 0);
      s(m) <= s(n) == m <= n
  implies
    \forall k, m, n: N
      0 + n == n;
      s(m) + n == s(m + n);
      m + n == n + m;
      n <= 0 == n = 0;
      n <= s(n);
      n < s(n);
      ~(n < 0);
      m <= n => m <= s(n);
      m <= s(n) == m <= n \/ m = s(n);
      m < s(n) == m <= n;
      m < n == s(m) <= n;
      m <= (m + n);
      n <= (m + n);
      (m + k) <= (n + k) == m <= n;
      (k + m) <= (k + n) == m <= n;
      (m + k) < (n + k) == m < n;
      min(0, n) == 0;
      max(0, n) == n;
      min(s(m), s(n)) == s(min(m, n));
      max(s(m), s(n)) == s(max(m, n));
      min(m, n) + max(m, n) == m + n
  converts <=
