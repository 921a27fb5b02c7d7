DeclarationsWithOp: trait
  introduces
    op none: -> Bag
    op many: Bag -> Num
