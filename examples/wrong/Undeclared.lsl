% Each name in a term is an operator or a variable of its item.
Undeclared: trait
  introduces
    empty: -> Q
    add: Q, E -> Q
    isEmpty: Q -> Bool
  asserts
    \forall q: Q
      isEmpty(empty);
      ~isEmpty(add(q, e))
