% Powers of natural numbers.
% Source: H. Grassmann (1861); Guttag and Horning (1993), appendix A ("Exponentiation").
% Surprising: what is to the power of nothing is one, nothing itself included.
NaturalPower: trait
  includes NaturalProduct
  introduces
    __ ^ __: N, N -> N
    square: N -> N
  asserts
    \forall m, n: N
      m ^ 0 == 1;
      m ^ s(n) == (m ^ n) * m;
      square(n) == n * n
  implies CancellativeMonoid (N, __ + __ for __ * __, 0 for unit), CommutativeSemiring (N)
    \forall k, m, n: N
      s(m) * n == (m * n) + n;
      k * (m * n) == m * (k * n);
      n ^ 1 == n;
      1 ^ n == 1;
      0 ^ s(n) == 0;
      k ^ (m + n) == (k ^ m) * (k ^ n);
      (k * m) ^ n == (k ^ n) * (m ^ n);
      k ^ (m * n) == (k ^ m) ^ n;
      square(m) * square(n) == square(m * n);
      n ^ s(s(0)) == square(n);
      square(m + n) == (square(m) + (m * n)) + ((m * n) + square(n))
  converts ^, square
