TraitWordMissing:
  introduces
    new: -> Stack
    pop: Stack -> Stack
