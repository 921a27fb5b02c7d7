% An order in which any two values of T can be compared.
TotalOrder (T): trait
  introduces
    __ <= __: T, T -> Bool
  asserts
    \forall x, y, z: T
      (x <= y /\ y <= z) => x <= z;
      (x <= y /\ y <= x) => x = y;
      x <= y \/ y <= x
  % It is a partial order too. That isn't stated, it is claimed.
  implies PartialOrder (T)
