% The other trait doesn't refer back.
Odd: trait
  includes Even
  asserts
    \forall n: N
      ~isOdd(0);
      isOdd(s(n)) == isEven(n)
