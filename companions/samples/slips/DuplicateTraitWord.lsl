DuplicateTraitWord: trait trait
  introduces
    a: -> A
