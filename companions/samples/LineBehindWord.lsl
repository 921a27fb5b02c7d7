LineBehindWord: trait
  introduces
    none: -> Bag
    many_: Bag -> Num
