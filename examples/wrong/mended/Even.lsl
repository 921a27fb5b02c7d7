% What both need stands in the trait that is included.
Even: trait
  introduces
    0: -> N
    s: N -> N
    isEven, isOdd: N -> Bool
  asserts
    \forall n: N
      isEven(0);
      isEven(s(n)) == isOdd(n)
