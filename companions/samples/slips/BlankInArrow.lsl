BlankInArrow: trait
  introduces
    new: -> Stack
    pop: Stack - > Stack
