% Each trait that is referred to has a file, and the file is among those that were named.
Missing: trait
  includes Oder (T)
  introduces
    least: -> T
  asserts
    \forall x: T
      least <= x
