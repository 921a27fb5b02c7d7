% An order in which some values of T may be compared.
PartialOrder (T): trait
  introduces
    __ <= __: T, T -> Bool
  asserts
    \forall x, y, z: T
      x <= x;
      (x <= y /\ y <= z) => x <= z;
      (x <= y /\ y <= x) => x = y
