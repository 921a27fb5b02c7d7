ArrowLong: trait
  introduces
    new: --> Stack
    pop: Stack --> Stack
