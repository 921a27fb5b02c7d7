% Multiplication of natural numbers.
% Source: H. Grassmann, Lehrbuch der Arithmetik (1861); G. Peano (1889).
NaturalProduct: trait
  includes Natural
  introduces
    __ * __: N, N -> N
  asserts
    \forall m, n: N
      m * 0 == 0;
      m * s(n) == (m * n) + m
  implies CancellativeMonoid (N, __ + __ for __ * __, 0 for unit), CommutativeSemiring (N)
    \forall k, m, n: N
      (s(k) * m) = (s(k) * n) == m = n;
      s(m) + n == s(m + n);
      s(m) * n == (m * n) + n;
      k * (m * n) == m * (k * n);
      (m + n) = 0 == m = 0 /\ n = 0;
      (m * n) = 0 == m = 0 \/ n = 0;
      (m * n) = 1 == m = 1 /\ n = 1;
      (m * s(k)) = (n * s(k)) == m = n;
      n + n == s(s(0)) * n
  converts *
