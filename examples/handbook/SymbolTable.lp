set box-checking on

% isHere(t, i) => isThere(t, i)
duty imply.1
  resume by induction on t
  <> basis init
  [] basis init
  <> step enter(tc)
  [] step enter(tc)
  <> step add(tc1, ac, ac1)
    resume by cases i = ac
    <> case ic = ac
    [] case ic = ac
    <> case ~(ic = ac)
    [] case ~(ic = ac)
  [] step add(tc1, ac, ac1)
  [] conjecture
  qed

% retrieve(add(t, i, a), i) == a
duty imply.2
  [] conjecture
  qed

% retrieve(add(add(t, i, a), i, b), i) == b
duty imply.3
  [] conjecture
  qed

% (i ~= j) => (retrieve(add(enter(t), i, a), j) = retrieve(t, j))
duty imply.4
  resume by =>
  <> implication
  [] implication
  [] conjecture
  qed

% leave(add(add(enter(t), i, a), j, b)) == t
duty imply.5
  [] conjecture
  qed

% retrieve(leave(add(enter(t), i, a)), j) == retrieve(t, j)
duty imply.6
  [] conjecture
  qed

% isThere(t, i) => (isHere(t, i) \/ isThere(leave(t), i))
duty imply.7
  resume by induction on t
  <> basis init
  [] basis init
  <> step enter(tc)
  [] step enter(tc)
  <> step add(tc1, ac, ac1)
    resume by cases i = ac
    <> case ic = ac
    [] case ic = ac
    <> case ~(ic = ac)
    [] case ~(ic = ac)
  [] step add(tc1, ac, ac1)
  [] conjecture
  qed

% (isThere(t, i) /\ (~ isHere(t, i))) => (retrieve(t, i) = retrieve(leave(t), i))
duty imply.8
  resume by induction on t
  <> basis init
  [] basis init
  <> step enter(tc)
  [] step enter(tc)
  <> step add(tc1, ac, ac1)
    resume by =>
    <> implication
      normalize H3
      instantiate i by ic in H2
    [] implication
  [] step add(tc1, ac, ac1)
  [] conjecture
  qed

% isHere(x1, x2) == isHere'(x1, x2)
duty convert.1
  resume by induction on x1
  <> basis init
  [] basis init
  <> step enter(x1c)
  [] step enter(x1c)
  <> step add(x1c1, ac, ac1)
  [] step add(x1c1, ac, ac1)
  [] conjecture
  qed

% isThere(x1, x2) == isThere'(x1, x2)
duty convert.2
  resume by induction on x1
  <> basis init
  [] basis init
  <> step enter(x1c)
  [] step enter(x1c)
  <> step add(x1c1, ac, ac1)
  [] step add(x1c1, ac, ac1)
  [] conjecture
  qed

% leave(x1) == leave'(x1)
duty convert.3
  resume by induction on x1
  <> basis init
  [] basis init
  <> step enter(x1c)
  [] step enter(x1c)
  <> step add(x1c1, ac, ac1)
  [] step add(x1c1, ac, ac1)
  [] conjecture
  qed

% retrieve(x1, x2) == retrieve'(x1, x2)
duty convert.4
  resume by induction on x1
  <> basis init
  [] basis init
  <> step enter(x1c)
  [] step enter(x1c)
  <> step add(x1c1, ac, ac1)
  [] step add(x1c1, ac, ac1)
  [] conjecture
  qed
