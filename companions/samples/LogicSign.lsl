LogicSign: trait
  introduces
    next: Num -> Num
  asserts
    ∀ n: Num
      next(n) ~= n
