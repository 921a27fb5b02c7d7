% How many elements sets have.
% Source: Guttag and Horning (1993), appendix A ("Set").
% Surprising: the sizes of a union and of the common part together are those of both sets, with no condition.
SetSize (E, S): trait
  includes SetAlgebra (E, S), Natural
  introduces
    size: S -> N
  asserts
    \forall e: E, a: S
      size({}) == 0;
      size(insert(e, a)) == if e \in a then size(a) else s(size(a))
  implies
    \forall d, e: E, a, b: S, m, n: N
      s(m) + n == s(m + n);
      0 + n == n;
      insert(e, a) ~= {};
      size({e}) == 1;
      size(a) = 0 == a = {};
      ~(e \in a) => size(insert(e, a)) = s(size(a));
      {} \union a == a;
      {} \inter b == {};
      insert(e, a) \union b == insert(e, a \union b);
      insert(e, a) \inter b == if e \in b then insert(e, a \inter b) else a \inter b;
      size(a \union b) + size(a \inter b) == size(a) + size(b)
  converts size
