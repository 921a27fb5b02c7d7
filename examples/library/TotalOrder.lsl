% An order in which any two values of T can be compared.
TotalOrder (T): trait
  introduces
    __ <= __, __ < __: T, T -> Bool
  asserts
    \forall x, y, z: T
      x <= x;
      (x <= y /\ y <= z) => x <= z;
      (x <= y /\ y <= x) => x = y;
      x <= y \/ y <= x;
      x < y == x <= y /\ x ~= y
