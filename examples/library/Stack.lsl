% Stacks of E: a list with its height beside it.
Stack (E): trait
  includes List (E, Items)
  Stack tuple of items: Items, height: N
  introduces
    new: -> Stack
    push: E, Stack -> Stack
    isEmpty: Stack -> Bool
  asserts
    \forall x: E, t: Stack
      new == [nil, 0];
      push(x, t) == [cons(x, t.items), s(t.height)];
      isEmpty(t) == t.height = 0
