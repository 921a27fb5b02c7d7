% A part of the term has a name now.
Deep: trait
  introduces
    0: -> N
    s: N -> N
    __ + __, __ * __: N, N -> N
    ten, many: -> N
  asserts
    \forall m, n: N
      m + 0 == m;
      m + s(n) == s(m + n);
      m * 0 == 0;
      m * s(n) == (m * n) + m;
      ten == s(s(s(s(s(s(s(s(s(s(0))))))))));
      many == s((ten * ten) + (ten * ten))
