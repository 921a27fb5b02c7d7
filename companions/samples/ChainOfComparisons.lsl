ChainOfComparisons: trait
  includes Number
  asserts
    \forall k, m, n: Num
      k < m < n == k < n
