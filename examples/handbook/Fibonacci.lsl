% Fibonacci's numbers, how they are computed in one pass, and what two of them make.
% Source: Leonardo of Pisa, Liber abaci (1202); E. Lucas (1878).
% Surprising: a number further on is a sum of two products of those before it; so they can be reached by doubling.
Fibonacci: trait
  includes NaturalProduct
  introduces
    fib: N -> N
    from: N, N, N -> N
    sumOfFib: N -> N
  asserts
    \forall k, m, n: N
      fib(0) == 0;
      fib(s(0)) == s(0);
      fib(s(s(n))) == fib(s(n)) + fib(n);
      from(0, k, m) == k;
      from(s(n), k, m) == from(n, m, m + k);
      sumOfFib(0) == 0;
      sumOfFib(s(n)) == sumOfFib(n) + fib(n)
  implies CancellativeMonoid (N, __ + __ for __ * __, 0 for unit), CommutativeSemiring (N)
    \forall k, m, n: N
      s(m) + n == s(m + n);
      s(m) * n == (m * n) + n;
      m + (n + k) == n + (m + k);
      from(n, fib(m), fib(s(m))) == fib(m + n);
      fib(n) == from(n, 0, s(0));
      s(sumOfFib(n)) == fib(s(n));
      fib(s(m + n)) == (fib(s(m)) * fib(s(n))) + (fib(m) * fib(n))
  converts from, sumOfFib
