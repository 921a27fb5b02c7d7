ArrowSign: trait
  introduces
    next: Num → Num
