RenamingByArrow: trait
  includes Number (Num -> Nat)
  introduces
    one: -> Nat
