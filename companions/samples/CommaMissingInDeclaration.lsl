CommaMissingInDeclaration: trait
  introduces
    put: Thing Bag -> Bag
    none: -> Bag
