% Even and odd numbers, doubles and halves.
% Source: Euclid, Elements, book IX; R. Boyer, J. Moore, A Computational Logic (1979).
NaturalParity: trait
  includes Natural
  introduces
    even, odd: N -> Bool
    double, half: N -> N
  asserts
    \forall n: N
      even(0);
      even(s(n)) == ~even(n);
      odd(n) == ~even(n);
      double(0) == 0;
      double(s(n)) == s(s(double(n)));
      half(0) == 0;
      half(s(n)) == if even(n) then half(n) else s(half(n))
  implies
    \forall m, n: N
      s(m) + n == s(m + n);
      even(n) \/ even(s(n));
      double(n) == n + n;
      double(m + n) == double(m) + double(n);
      even(double(n));
      odd(s(double(n)));
      even(m + n) == even(m) <=> even(n);
      even(n + n);
      half(double(n)) == n;
      half(s(double(n))) == n;
      n == if even(n) then double(half(n)) else s(double(half(n)));
      even(n) => double(half(n)) = n;
      odd(n) => s(double(half(n))) = n;
      double(m) = double(n) == m = n;
      double(m) ~= s(double(n))
  converts even, odd, double, half
