% Two functions between orders, each of which undoes the other as far as can be.
% Source: O. Ore, Galois connexions (1944).
% Surprising: that both keep the order follows, and that going there, back and there again is going there.
GaloisConnection (A, B): trait
  includes PartialOrder (A), PartialOrder (B)
  introduces
    lower: A -> B
    upper: B -> A
    closure: A -> A
  asserts
    \forall x: A, y: B
      lower(x) <= y == x <= upper(y);
      closure(x) == upper(lower(x))
  implies ClosureOperator (A)
    \forall w, x: A, y, z: B
      x <= upper(lower(x));
      lower(upper(y)) <= y;
      w <= x => lower(w) <= lower(x);
      y <= z => upper(y) <= upper(z);
      lower(upper(lower(x))) == lower(x);
      upper(lower(upper(y))) == upper(y);
      closure(upper(y)) == upper(y)
  converts closure
