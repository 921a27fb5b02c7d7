% What tells values of a sort apart takes them: the sort is in the domain of each.
Observer: trait
  introduces
    empty: -> Q
    add: Q, E -> Q
    first: Q -> E
    rest: Q -> Q
    isEmpty: Q -> Bool
  asserts
    Q partitioned by first, rest, isEmpty
