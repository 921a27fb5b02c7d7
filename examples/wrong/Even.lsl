% Two traits that refer to each other.
Even: trait
  includes Odd
  introduces
    0: -> N
    isEven: N -> Bool
  asserts
    \forall n: N
      isEven(0);
      isEven(s(n)) == isOdd(n)
