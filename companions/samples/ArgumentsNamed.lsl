ArgumentsNamed: trait
  introduces
    put(t: Thing, b: Bag): Bag
