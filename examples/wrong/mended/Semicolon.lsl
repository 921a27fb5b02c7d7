% Between two equations stands a semicolon.
Semicolon: trait
  introduces
    0: -> N
    s: N -> N
    empty: -> Q
    add: Q, E -> Q
    size: Q -> N
  asserts
    \forall q: Q, e: E
      size(empty) == 0;
      size(add(q, e)) == s(size(q))
