% Nothing is wrong here but that the other trait is: mend that one.
Client: trait
  includes Arrow
  introduces
    add: Q, E -> Q
  asserts
    \forall q: Q, e: E
      ~isEmpty(add(q, e))
