FunctionArrows: trait
  introduces
    none: -> Bag
    put: Thing -> Bag -> Bag
