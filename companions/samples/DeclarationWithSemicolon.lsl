DeclarationWithSemicolon: trait
  introduces
    none: -> Bag;
    many: Bag -> Num;
