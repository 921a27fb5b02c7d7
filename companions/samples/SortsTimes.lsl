SortsTimes: trait
  introduces
    put: Thing * Bag -> Bag
