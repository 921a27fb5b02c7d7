NegatedByBang: trait
  includes Number
  introduces
    new: -> Stack
    push: Stack, Item -> Stack
    top: Stack -> Item
    pop: Stack -> Stack
    depth: Stack -> Num
    isNew: Stack -> Bool
  asserts
    \forall s: Stack, i: Item
      !isNew(push(s, i))
