SortWithBrackets: trait
  introduces
    none: -> Bag[Thing]
    many: Bag[Thing] -> Num
