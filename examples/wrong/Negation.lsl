% No prefix symbol follows an infix one.
Negation: trait
  introduces
    __ + __, __ - __: N, N -> N
    - __: N -> N
  asserts
    \forall x, y: N
      x - y == x + -y
