% A total order with its strict part and its dual, each said by the others.
% Source: Guttag and Horning (1993), appendix A ("DerivedOrders").
% Surprising: the dual order is one by the very same trait, with the symbol exchanged.
OrderOperators (E): trait
  assumes TotalOrder (E)
  introduces
    __ < __, __ >= __, __ > __: E, E -> Bool
  asserts
    \forall x, y: E
      x < y == ~(y <= x);
      x >= y == y <= x;
      x > y == y < x
  implies StrictOrder (E), StrictOrder (E, __ > __ for __ < __), TotalOrder (E, __ >= __ for __ <= __)
    \forall x, y, z: E
      x <= y == x < y \/ x = y;
      x < y == x <= y /\ x ~= y;
      x < y \/ x = y \/ y < x;
      (x < y /\ y <= z) => x < z;
      (x <= y /\ y < z) => x < z;
      ~(x < y) == x >= y
  converts <, >=, >
