Queue: trait
  introduces
    empty: -> Q
    enqueue: Item, Q -> Q
    first, last: Q -> Item
    isEmpty: Q -> Bool
