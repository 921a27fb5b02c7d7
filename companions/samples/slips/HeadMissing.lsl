introduces
  new: -> Stack
  pop: Stack -> Stack
asserts
  pop(new) == new
