PartialArrow: trait
  introduces
    first: Bag ->? Thing
