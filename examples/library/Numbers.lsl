% Sorted lists of natural numbers: their order is there already, so nothing is left to assume.
Numbers: trait
  includes Natural, SortedList (N, Numbers)
  introduces
    sum: Numbers -> N
  asserts
    \forall n: N, l: Numbers
      sum(nil) == 0;
      sum(cons(n, l)) == n + sum(l)
