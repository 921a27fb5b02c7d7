SortLower: trait
  introduces
    new: -> stack
    push: Stack, Item -> Stack
    isNew: Stack -> Bool
  asserts
    isNew(new)
