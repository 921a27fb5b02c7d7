PostfixWanted: trait
  introduces
    new: -> Stack
    __!: Stack -> Stack
    full: Stack -> Bool
  asserts
    full(!new)
