% Variables are introduced by \forall.
Quantifier: trait
  introduces
    empty: -> Q
    add: Q, E -> Q
    isEmpty: Q -> Bool
  asserts
    \forall q: Q, e: E
      ~isEmpty(add(q, e))
