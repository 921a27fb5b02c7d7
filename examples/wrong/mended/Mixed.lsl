% The connectives have no order among each other.
Mixed: trait
  includes Order (T)
  introduces
    max: T, T -> T
  asserts
    \forall x, y, z: T
      (x <= z /\ y <= z) => max(x, y) <= z
