% A lift between floors: it goes up and down between the lowest and the highest one, and only with its doors closed.
% Source: N. Davis's problem at the workshop on specification (1987).
% Surprising: that the doors are closed while it moves is an invariant; that it stays in the house has to be shown too.
Lift: trait
  includes NaturalMinus
  Lift tuple of floor: N, isOpen: Bool
  introduces
    highest: -> N
    start: -> Lift
    up, down, open, close: Lift -> Lift
    isInHouse: Lift -> Bool
  asserts
    \forall l: Lift
      start == [0, true];
      open(l) == set_isOpen(l, true);
      close(l) == set_isOpen(l, false);
      up(l) == if l.isOpen \/ highest <= l.floor then l else set_floor(l, s(l.floor));
      down(l) == if l.isOpen \/ l.floor = 0 then l else set_floor(l, pred(l.floor));
      isInHouse(l) == l.floor <= highest
  implies
    \forall l: Lift, m, n: N
      m < n == s(m) <= n;
      n <= s(n);
      s(m) <= n => m <= n;
      pred(n) <= n;
      m <= n => pred(m) <= n;
      isInHouse(start);
      isInHouse(l) => isInHouse(up(l));
      isInHouse(l) => isInHouse(down(l));
      isInHouse(open(l)) == isInHouse(l);
      isInHouse(close(l)) == isInHouse(l);
      l.isOpen => up(l) = l;
      l.isOpen => down(l) = l;
      up(l).isOpen == l.isOpen;
      down(l).isOpen == l.isOpen;
      up(l).floor ~= l.floor => ~(l.isOpen);
      open(close(l)) == open(l);
      up(open(l)) == open(l);
      ~(highest <= l.floor) => down(up(close(l))) = close(l)
  converts start, open, close, up, down, isInHouse
