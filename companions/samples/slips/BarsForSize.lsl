BarsForSize: trait
  introduces
    empty: -> Set
    add: Item, Set -> Set
    size: Set -> Count
    zero: -> Count
  asserts
    |empty| == zero
