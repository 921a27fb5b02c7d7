EnumerationWithBars: trait
  Colour enumeration of red | green
  introduces
    other: Colour -> Colour
