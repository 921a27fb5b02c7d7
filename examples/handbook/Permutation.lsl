% Lists that have the same elements, each as often.
% Source: Guttag and Horning (1993), appendix A ("Permutation").
% Surprising: by the bag of a list, it is an equality, and so an equivalence for nothing.
Permutation (E, L, B): trait
  includes ListReverse (E, L), Bag (E, B)
  introduces
    bag: L -> B
    isPermutation: L, L -> Bool
  asserts
    \forall e: E, k, l: L
      bag(nil) == {};
      bag(cons(e, l)) == insert(e, bag(l));
      isPermutation(k, l) == bag(k) = bag(l)
  implies Equivalence (L, isPermutation for __ \eqv __), CommutativeMonoid (N, __ + __ for __ * __, 0 for unit),
    CommutativeMonoid (B, __ \union __ for __ * __, {} for unit)
    \forall d, e: E, a, b: B, j, k, l: L, m, n: N
      s(m) + n == s(m + n);
      insert(e, a) \union b == insert(e, a \union b);
      insert(d, insert(e, a)) == insert(e, insert(d, a));
      delete(e, insert(e, a)) == a;
      insert(e, a) = insert(e, b) == a = b;
      bag(k ++ l) == bag(k) \union bag(l);
      bag(reverse(l)) == bag(l);
      isPermutation(k ++ l, l ++ k);
      isPermutation(reverse(l), l);
      isPermutation(cons(d, cons(e, l)), cons(e, cons(d, l)));
      isPermutation(cons(e, k), cons(e, l)) == isPermutation(k, l);
      isPermutation(k ++ cons(e, l), cons(e, k ++ l));
      isPermutation(k, l) => isPermutation(k ++ j, l ++ j)
  converts bag, isPermutation
