ShorthandWithEquals: trait
  Light = enumeration of red, amber, green
  introduces
    next: Light -> Light
