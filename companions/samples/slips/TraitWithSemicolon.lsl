TraitWithSemicolon: trait;
  introduces
    low: -> Level
