% Subtraction of natural numbers, which ends at 0.
% Source: R. Peter, Rekursive Funktionen (1951); "monus" of books on recursion.
% Surprising: the greater of two numbers is a difference and a sum.
NaturalMinus: trait
  includes NaturalOrder
  introduces
    pred: N -> N
    __ - __: N, N -> N
  asserts
    \forall m, n: N
      pred(0) == 0;
      pred(s(n)) == n;
      m - 0 == m;
      m - s(n) == pred(m - n)
  implies
    \forall k, m, n: N
      0 + n == n;
      s(m) + n == s(m + n);
      m + n == n + m;
      0 - n == 0;
      s(m) - s(n) == m - n;
      n - n == 0;
      (m + n) - n == m;
      (m + n) - m == n;
      (m - n) = 0 == m <= n;
      m <= n => (n - m) + m = n;
      (n - m) + m == max(m, n);
      m - (n + k) == (m - n) - k;
      (m - n) - k == (m - k) - n;
      (m + k) - (n + k) == m - n;
      n <= n;
      m <= n => m <= s(n);
      m <= n => pred(m) <= n;
      m <= n => pred(m) <= pred(n);
      (m - n) <= m;
      m <= n => (m - k) <= (n - k)
  converts pred, -
