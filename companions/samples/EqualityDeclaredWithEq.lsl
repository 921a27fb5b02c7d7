EqualityDeclaredWithEq: trait
  introduces
    new: -> Stack
    __ == __: Stack, Stack -> Bool
