OfMissing: trait
  Colour enumeration red, green
  introduces
    other: Colour -> Colour
