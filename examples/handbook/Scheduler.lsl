% Processes that take turns: one runs, the others wait in a queue; nobody gets lost.
% Source: Dijkstra, Cooperating sequential processes (1965); A. Tanenbaum, Modern Operating Systems (1992).
% Surprising: as many turns as there are waiting, and one more, bring the first one back; here it is shown of two.
Scheduler (P, Q): trait
  includes Queue (P, Q)
  State tuple of running: P, waiting: Q
  introduces
    start: P -> State
    fork: State, P -> State
    yield: State -> State
    exit: State -> State
    processes: State -> N
    hasWaiting: State -> Bool
  asserts
    \forall p: P, t: State
      start(p) == [p, empty];
      fork(t, p) == set_waiting(t, add(t.waiting, p));
      yield(t) == if isEmpty(t.waiting) then t else [first(t.waiting), rest(add(t.waiting, t.running))];
      exit(t) == if isEmpty(t.waiting) then t else [first(t.waiting), rest(t.waiting)];
      processes(t) == s(size(t.waiting));
      hasWaiting(t) == ~isEmpty(t.waiting)
  implies
    \forall p, r: P, q: Q, t: State
      isEmpty(q) => q = empty;
      ~isEmpty(q) => s(size(rest(q))) = size(q);
      processes(start(p)) == 1;
      processes(fork(t, p)) == s(processes(t));
      processes(yield(t)) == processes(t);
      hasWaiting(t) => s(processes(exit(t))) = processes(t);
      hasWaiting(yield(t)) == hasWaiting(t);
      yield(start(p)) == start(p);
      yield(yield(fork(start(p), r))) == fork(start(p), r);
      yield(fork(start(p), r)).running == r;
      exit(fork(start(p), r)) == start(r);
      ~hasWaiting(t) => yield(t) = t
  converts start, fork, yield, exit, processes, hasWaiting
