LessOrEqualSign: trait
  introduces
    __ <= __: Num, Num -> Bool
  asserts
    \forall n: Num
      n ≤ n
