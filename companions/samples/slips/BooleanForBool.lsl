BooleanForBool: trait
  introduces
    new: -> Stack
    isNew: Stack -> Boolean
  asserts
    isNew(new) == true
