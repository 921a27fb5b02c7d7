ReservedAsVariable: trait
  introduces
    next: Num -> Num
  asserts
    \forall by: Num
      next(by) ~= by
