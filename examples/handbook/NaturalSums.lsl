% Sums of the first numbers and of the first odd ones; factorials.
% Source: Nicomachus of Gerasa, Introduction to Arithmetic (about 100); Archimedes.
% Surprising: the first odd numbers together make a square.
NaturalSums: trait
  includes NaturalProduct
  introduces
    sum, sumOfOdd, factorial: N -> N
    odd: N -> N
  asserts
    \forall n: N
      odd(0) == 1;
      odd(s(n)) == s(s(odd(n)));
      sum(0) == 0;
      sum(s(n)) == sum(n) + s(n);
      sumOfOdd(0) == 0;
      sumOfOdd(s(n)) == sumOfOdd(n) + odd(n);
      factorial(0) == 1;
      factorial(s(n)) == s(n) * factorial(n)
  implies CancellativeMonoid (N, __ + __ for __ * __, 0 for unit), CommutativeSemiring (N)
    \forall j, k, m, n: N
      s(m) + n == s(m + n);
      s(m) * n == (m * n) + n;
      k + (m + n) == m + (k + n);
      (m + n) = 0 == m = 0 /\ n = 0;
      odd(n) == s(n + n);
      sum(n) + sum(n) == n * s(n);
      sumOfOdd(n) == n * n;
      factorial(n) ~= 0
  converts odd, sum, sumOfOdd, factorial
