% A sort is there because an operator has it, and no operator has this one.
Sort: trait
  introduces
    empty: -> Queue
    add: Queue, E -> Queue
    isEmpty: Queue -> Bool
  asserts
    \forall q: Qeue, e: E
      ~isEmpty(add(q, e))
