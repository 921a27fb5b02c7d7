UnionAsOperator: trait
  introduces
    empty: -> Set
    add: Item, Set -> Set
    union: Set, Set -> Set
