% Two traits that refer to each other.
Odd: trait
  includes Even
  introduces
    s: N -> N
    isOdd: N -> Bool
  asserts
    \forall n: N
      ~isOdd(0);
      isOdd(s(n)) == isEven(n)
