% A trait that is said to follow has no operators of its own: here it is an order called otherwise.
Implied: trait
  introduces
    __ \below __: T, T -> Bool
  asserts
    \forall x: T
      x \below x
  implies Order (T, \below for <=)
