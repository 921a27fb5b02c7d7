ImpliesWithoutForall: trait
  includes Number
  introduces
    new: -> Stack
    push: Stack, Item -> Stack
    top: Stack -> Item
    pop: Stack -> Stack
    depth: Stack -> Num
    isNew: Stack -> Bool
  asserts
    \forall s: Stack, i: Item
      top(push(s, i)) == i
  implies
      pop(push(s, i)) == s
