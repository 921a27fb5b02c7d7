ReservedAsName: trait
  introduces
    none: -> Bag
    union: Bag, Bag -> Bag
