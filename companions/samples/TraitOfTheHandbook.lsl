TraitOfTheHandbook: trait
  includes Integer
  introduces
    one: -> Int
