% Arguments come in the order of the declaration.
Swapped: trait
  introduces
    empty: -> Q
    add: Q, E -> Q
    isEmpty: Q -> Bool
  asserts
    \forall q: Q, e: E
      ~isEmpty(add(e, q))
