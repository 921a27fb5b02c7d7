PlacesAndSorts: trait
  introduces
    zero: -> Num
    __ + __: Num -> Num
