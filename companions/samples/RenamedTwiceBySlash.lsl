RenamedTwiceBySlash: trait
  includes Number (Nat/Num)
  introduces
    one: -> Nat
