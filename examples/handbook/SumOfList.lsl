% Sums and products of numbers in a list: what was assumed of elements is shown of numbers.
% Source: Bird and Wadler (1988).
SumOfList (L): trait
  includes NaturalProduct,
    CommutativeReduce (N, L, __ + __ for __ * __, 0 for unit, sum for reduce, sumOnto for reduceOnto),
    CommutativeReduce (N, L, 1 for unit, product for reduce, productOnto for reduceOnto)
  introduces
    scale: N, L -> L
  asserts
    \forall k, n: N, l: L
      scale(k, nil) == nil;
      scale(k, cons(n, l)) == cons(k * n, scale(k, l))
  implies
    \forall k, n: N, j, l: L
      k * (sum(j) + sum(l)) == (k * sum(j)) + (k * sum(l));
      sum(scale(k, l)) == k * sum(l);
      scale(k, j ++ l) == scale(k, j) ++ scale(k, l);
      scale(1, l) == l;
      product(cons(0, l)) == 0
  converts scale
