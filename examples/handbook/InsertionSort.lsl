% Sorting by insertion: what is made is sorted, and a permutation of what was given.
% Source: Burstall (1969); Boyer and Moore, A Computational Logic (1979); docs/HANDBOOK.md tells the proof.
% Surprising: the order in which elements are put in doesn't matter, so that all permutations are sorted alike.
InsertionSort (E, L, B): trait
  assumes TotalOrder (E)
  includes Permutation (E, L, B)
  introduces
    isAtMost: E, L -> Bool
    isSorted: L -> Bool
    into: E, L -> L
    sort: L -> L
  asserts
    \forall d, e: E, l: L
      % What is wanted.
      isAtMost(d, nil);
      isAtMost(d, cons(e, l)) == d <= e /\ isAtMost(d, l);
      isSorted(nil);
      isSorted(cons(e, l)) == isAtMost(e, l) /\ isSorted(l);
      % What is done.
      into(d, nil) == single(d);
      into(d, cons(e, l)) == if d <= e then cons(d, cons(e, l)) else cons(e, into(d, l));
      sort(nil) == nil;
      sort(cons(e, l)) == into(e, sort(l))
  implies
    \forall c, d, e: E, a: B, k, l: L
      % It is sorted.
      (c <= d /\ isAtMost(d, l)) => isAtMost(c, l);
      isAtMost(c, into(d, l)) == c <= d /\ isAtMost(c, l);
      isSorted(l) => isSorted(into(d, l));
      isSorted(sort(l));
      % It is a permutation.
      insert(d, insert(e, a)) == insert(e, insert(d, a));
      bag(into(d, l)) == insert(d, bag(l));
      isPermutation(into(d, l), cons(d, l));
      isPermutation(sort(l), l);
      % What is sorted stays as it is.
      isAtMost(d, l) => into(d, l) = cons(d, l);
      isSorted(l) => sort(l) = l;
      sort(sort(l)) == sort(l);
      sort(l) = l == isSorted(l);
      % The order in which elements are put in doesn't matter.
      into(d, into(e, l)) == into(e, into(d, l));
      sort(k ++ cons(e, l)) == into(e, sort(k ++ l));
      sort(k ++ l) == sort(l ++ k);
      sort(reverse(l)) == sort(l)
  converts isAtMost, isSorted, into, sort
