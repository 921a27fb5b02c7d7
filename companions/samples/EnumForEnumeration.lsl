EnumForEnumeration: trait
  Colour enum of red, green
  introduces
    other: Colour -> Colour
