EmptyListBrackets: trait
  introduces
    cons: Item, List -> List
    append: List, List -> List
  asserts
    \forall l: List
      append([], l) == l
