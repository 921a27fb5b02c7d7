% Sorted lists: whoever includes this has to have an order on the elements.
SortedList (E, L): trait
  assumes TotalOrder (E)
  includes List (E, L)
  introduces
    isSorted: L -> Bool
    insert: E, L -> L
  asserts
    \forall x, y: E, l: L
      isSorted(nil);
      isSorted(cons(x, nil));
      isSorted(cons(x, cons(y, l))) == x <= y /\ isSorted(cons(y, l));
      insert(x, nil) == cons(x, nil);
      insert(x, cons(y, l)) == if x <= y then cons(x, cons(y, l)) else cons(y, insert(x, l))
