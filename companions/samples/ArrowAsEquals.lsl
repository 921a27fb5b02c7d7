ArrowAsEquals: trait
  introduces
    next: Num => Num
