QuantifierSwapped: trait
  includes Number
  introduces
    new: -> Stack
    push: Stack, Item -> Stack
    top: Stack -> Item
    pop: Stack -> Stack
    depth: Stack -> Num
    isNew: Stack -> Bool
  asserts
    \forall Stack s, Item i
      top(push(s, i)) == i
