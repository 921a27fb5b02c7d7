RenamingWithWith: trait
  includes Number with (Nat for Num)
  introduces
    one: -> Nat
