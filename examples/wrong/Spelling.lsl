% A sort that is misspelt in a declaration is another sort. That shows where the operator is used.
Spelling: trait
  introduces
    empty: -> Queue
    add: Qeue, E -> Queue
    isEmpty: Queue -> Bool
  asserts
    \forall q: Queue, e: E
      ~isEmpty(add(q, e))
