% Functions that make things greater, keep the order, and do nothing when done again.
% Source: E. Moore, Introduction to a form of general analysis (1910); K. Kuratowski (1922).
ClosureOperator (E): trait
  includes PartialOrder (E)
  introduces
    closure: E -> E
  asserts
    \forall x, y: E
      x <= closure(x);
      x <= y => closure(x) <= closure(y);
      closure(closure(x)) == closure(x)
  implies
    \forall x, y, z: E
      closure(x) <= x == closure(x) = x;
      x <= closure(y) == closure(x) <= closure(y);
      (x <= y /\ y <= closure(x)) => closure(x) = closure(y);
      (x <= y /\ closure(y) = y) => closure(x) <= y
