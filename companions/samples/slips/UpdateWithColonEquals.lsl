UpdateWithColonEquals: trait
  introduces
    __[__]: Array, Index -> Item
    assign: Array, Index, Item -> Array
  asserts
    \forall a: Array, i: Index, e: Item
      assign(a, i, e) == a[i := e]
