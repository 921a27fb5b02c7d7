ConstantWithoutArrow: trait
  introduces
    zero: Num
