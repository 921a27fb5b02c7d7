ArrowDouble: trait
  introduces
    next: Num ->> Num
