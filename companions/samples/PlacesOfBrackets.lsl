PlacesOfBrackets: trait
  introduces
    [__, __]: Num, Num, Num -> Place
