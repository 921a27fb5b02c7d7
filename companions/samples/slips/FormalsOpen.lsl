FormalsOpen(Item: trait
  introduces
    new: -> Stack
    push: Stack, Item -> Stack
