% Each trait that is referred to has a file, and the file is among those that were named.
Missing: trait
  includes Order (T)
  introduces
    least: -> T
  asserts
    \forall x: T
      least <= x
