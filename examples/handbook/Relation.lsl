% Relations R between elements E: their algebra without composition.
% Source: A. De Morgan (1860); A. Tarski, On the calculus of relations (1941); Guttag and Horning (1993), appendix A.
% Surprising: that a relation is symmetric is an equation, since it is its own converse then.
Relation (E, R): trait
  introduces
    holds: E, R, E -> Bool
    {}, all, same: -> R
    __ \union __, __ \inter __: R, R -> R
    - __, converse: R -> R
    pair: E, E -> R
    isSymmetric: R -> Bool
  asserts
    R partitioned by holds
    \forall x, y, u, v: E, r, t: R
      ~holds(x, {}, y);
      holds(x, all, y);
      holds(x, same, y) == x = y;
      holds(x, r \union t, y) == holds(x, r, y) \/ holds(x, t, y);
      holds(x, r \inter t, y) == holds(x, r, y) /\ holds(x, t, y);
      holds(x, -r, y) == ~holds(x, r, y);
      holds(x, converse(r), y) == holds(y, r, x);
      holds(x, pair(u, v), y) == x = u /\ y = v;
      isSymmetric(r) == converse(r) = r
  implies
    \forall x, y: E, q, r, t: R
      r \union t == t \union r;
      (q \union r) \union t == q \union (r \union t);
      r \inter t == t \inter r;
      (q \inter r) \inter t == q \inter (r \inter t);
      q \inter (r \union t) == (q \inter r) \union (q \inter t);
      r \union {} == r;
      r \inter all == r;
      r \inter (-r) == {};
      r \union (-r) == all;
      -(-r) == r;
      -(r \union t) == (-r) \inter (-t);
      -{} == all;
      converse(converse(r)) == r;
      converse(r \union t) == converse(r) \union converse(t);
      converse(r \inter t) == converse(r) \inter converse(t);
      converse(-r) == -(converse(r));
      converse(same) == same;
      converse(pair(x, y)) == pair(y, x);
      isSymmetric(r \union converse(r));
      isSymmetric(same);
      (isSymmetric(r) /\ isSymmetric(t)) => isSymmetric(r \inter t);
      isSymmetric(r) => isSymmetric(-r);
      isSymmetric(r) => holds(x, r, y) = holds(y, r, x)
  converts \union, \inter, - __, converse, isSymmetric, {}, all, same, pair
