% An order, for the traits here that refer to one.
Order (T): trait
  introduces
    __ <= __: T, T -> Bool
  asserts
    \forall x, y, z: T
      x <= x;
      (x <= y /\ y <= z) => x <= z
