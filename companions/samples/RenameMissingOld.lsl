RenameMissingOld: trait
  includes Number (Nat for)
  introduces
    one: -> Nat
