RenamingOpen: trait
  includes Number (Nat for Num
  introduces
    one: -> Nat
