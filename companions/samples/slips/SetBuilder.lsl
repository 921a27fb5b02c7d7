SetBuilder: trait
  introduces
    all: -> Set
    has: Set, Item -> Bool
    evens: Set -> Set
  asserts
    \forall s: Set, i: Item
      evens(s) == {i | has(s, i)}
