ColonBehindSymbol: trait
  introduces
    none: -> Bag
    __ \in __ Thing, Bag -> Bool
