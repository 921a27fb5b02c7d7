% The days of the week, an enumeration that goes round.
% Source: Guttag and Horning (1993), appendix A ("Enumeration").
% Surprising: going back one day is going on by six; `succ` says nothing of the last day, so `next` has to.
Weekday: trait
  Day enumeration of monday, tuesday, wednesday, thursday, friday, saturday, sunday
  introduces
    next, previous: Day -> Day
    isWeekend: Day -> Bool
  asserts
    \forall d: Day
      next(d) == if d = sunday then monday else succ(d);
      previous(d) == next(next(next(next(next(next(d))))));
      isWeekend(d) == d = saturday \/ d = sunday
  implies
    \forall d, e: Day
      next(next(next(next(next(next(next(d))))))) == d;
      next(previous(d)) == d;
      previous(next(d)) == d;
      next(d) = next(e) == d = e;
      next(d) ~= d;
      isWeekend(d) => ~isWeekend(next(next(d)));
      (isWeekend(d) /\ isWeekend(next(d))) == d = saturday;
      previous(monday) == sunday
  converts next, isWeekend, previous
