% A queue as two lists, the second one backwards, and why that is one: each operation means what it is to mean.
% Source: R. Hood, R. Melville, Real-time queue operations in pure Lisp (1981); C. Hoare, Proof of correctness of data
% representations (1972), of meanings of representations.
% Surprising: nothing has to be said of when the second list is turned round.
ListQueue (E, L, Q): trait
  includes ListReverse (E, L)
  Q tuple of front: L, back: L
  introduces
    meaning: Q -> L
    empty: -> Q
    add: Q, E -> Q
    turn, rest: Q -> Q
    first: Q -> E
    isEmpty: Q -> Bool
  asserts
    \forall e: E, q: Q
      meaning(q) == q.front ++ reverse(q.back);
      empty == [nil, nil];
      add(q, e) == [q.front, cons(e, q.back)];
      turn(q) == if isEmpty(q.front) then [reverse(q.back), nil] else q;
      first(q) == head(turn(q).front);
      rest(q) == [tail(turn(q).front), turn(q).back];
      isEmpty(q) == isEmpty(q.front) /\ isEmpty(q.back)
  implies Monoid (L, __ ++ __ for __ * __, nil for unit)
    \forall e: E, k, l: L, q: Q
      isEmpty(k ++ l) == isEmpty(k) /\ isEmpty(l);
      isEmpty(l) => l = nil;
      meaning(empty) == nil;
      meaning(add(q, e)) == meaning(q) ++ single(e);
      meaning(turn(q)) == meaning(q);
      isEmpty(reverse(l)) == isEmpty(l);
      isEmpty(q) == isEmpty(meaning(q));
      ~isEmpty(q) => ~isEmpty(turn(q).front);
      ~isEmpty(k) => head(k ++ l) = head(k);
      ~isEmpty(k) => tail(k ++ l) = (tail(k) ++ l);
      ~isEmpty(q) => first(q) = head(meaning(q));
      ~isEmpty(q) => meaning(rest(q)) = tail(meaning(q))
  converts meaning, add, isEmpty: Q -> Bool
