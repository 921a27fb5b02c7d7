set box-checking on

% isEmpty(q) => (q = empty)
duty imply.1
  resume by induction on q
  <> basis empty
  [] basis empty
  <> step add(qc, ac)
  [] step add(qc, ac)
  [] conjecture
  qed

% (~ isEmpty(q)) => (s(size(rest(q))) = size(q))
duty imply.2
  resume by induction on q
  <> basis empty
  [] basis empty
  <> step add(qc, ac)
    register height qc > empty
    resume by cases isEmpty(qc)
    <> case isEmpty(qc)
      instantiate q by qc in L1
    [] case isEmpty(qc)
    <> case ~(isEmpty(qc))
      normalize H1
    [] case ~(isEmpty(qc))
  [] step add(qc, ac)
  [] conjecture
  qed

% processes(start(p)) == 1
duty imply.3
  [] conjecture
  qed

% processes(fork(t, p)) == s(processes(t))
duty imply.4
  resume by induction on t
  <> basis [ac, ac1]
  [] basis [ac, ac1]
  [] conjecture
  qed

% processes(yield(t)) == processes(t)
duty imply.5
  resume by cases isEmpty(t.waiting)
  <> case isEmpty(tc.waiting)
  [] case isEmpty(tc.waiting)
  <> case ~(isEmpty(tc.waiting))
    instantiate q by tc.waiting in L2
  [] case ~(isEmpty(tc.waiting))
  [] conjecture
  qed

% hasWaiting(t) => (s(processes(exit(t))) = processes(t))
duty imply.6
  resume by =>
  <> implication
    instantiate q by tc.waiting in L2
  [] implication
  [] conjecture
  qed

% hasWaiting(yield(t)) == hasWaiting(t)
duty imply.7
  resume by cases isEmpty(t.waiting)
  <> case isEmpty(tc.waiting)
  [] case isEmpty(tc.waiting)
  <> case ~(isEmpty(tc.waiting))
  [] case ~(isEmpty(tc.waiting))
  [] conjecture
  qed

% yield(start(p)) == start(p)
duty imply.8
  [] conjecture
  qed

% yield(yield(fork(start(p), r))) == fork(start(p), r)
duty imply.9
  [] conjecture
  qed

% yield(fork(start(p), r)).running == r
duty imply.10
  [] conjecture
  qed

% exit(fork(start(p), r)) == start(r)
duty imply.11
  [] conjecture
  qed

% (~ hasWaiting(t)) => (yield(t) = t)
duty imply.12
  resume by =>
  <> implication
  [] implication
  [] conjecture
  qed

% start(x1) == start'(x1)
duty convert.1
  [] conjecture
  qed

% fork(x1, x2) == fork'(x1, x2)
duty convert.2
  [] conjecture
  qed

% yield(x1) == yield'(x1)
duty convert.3
  [] conjecture
  qed

% exit(x1) == exit'(x1)
duty convert.4
  [] conjecture
  qed

% processes(x1) == processes'(x1)
duty convert.5
  [] conjecture
  qed

% hasWaiting(x1) == hasWaiting'(x1)
duty convert.6
  [] conjecture
  qed
