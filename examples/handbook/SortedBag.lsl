% The sorted list of a bag, and that there is one only: whatever sorts, makes the list that insertion makes.
% Source: R. Bird, P. Wadler, Introduction to Functional Programming (1988), of programs as what they are to do.
% Surprising: that sorted lists with the same elements are equal follows, since the order of insertions doesn't matter.
SortedBag (E, L, B): trait
  assumes TotalOrder (E)
  includes InsertionSort (E, L, B)
  introduces
    sorted: B -> L
  asserts
    \forall e: E, a: B
      sorted({}) == nil;
      sorted(insert(e, a)) == into(e, sorted(a))
  implies
    \forall c, d, e: E, a: B, k, l: L
      (c <= d /\ isAtMost(d, l)) => isAtMost(c, l);
      isAtMost(c, into(d, l)) == c <= d /\ isAtMost(c, l);
      isSorted(l) => isSorted(into(d, l));
      insert(d, insert(e, a)) == insert(e, insert(d, a));
      bag(into(d, l)) == insert(d, bag(l));
      isAtMost(d, l) => into(d, l) = cons(d, l);
      isSorted(l) => sort(l) = l;
      sorted(bag(l)) == sort(l);
      isPermutation(k, l) => sort(k) = sort(l);
      (isSorted(k) /\ isSorted(l) /\ isPermutation(k, l)) => k = l;
      isSorted(sorted(a));
      bag(sorted(a)) == a
  converts sorted
