SortsDeclared: trait
  introduces
    sorts Bag, Num
    many: Bag -> Num
