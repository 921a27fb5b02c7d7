ForeachWord: trait
  introduces
    new: -> Stack
    pop: Stack -> Stack
  asserts
    for each s: Stack
      pop(new) == new
