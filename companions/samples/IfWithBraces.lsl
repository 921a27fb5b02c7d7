IfWithBraces: trait
  includes Number
  introduces
    new: -> Stack
    push: Stack, Item -> Stack
    top: Stack -> Item
    pop: Stack -> Stack
    depth: Stack -> Num
    isNew: Stack -> Bool
  asserts
    \forall s: Stack, i: Item
      depth(s) == if isNew(s) { zero } else { next(zero) }
