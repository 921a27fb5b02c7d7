set box-checking on

% leave(enter(t)) == t
duty imply.1
  [] conjecture
  qed

% leave(add(push(m, t), i, a)) == leave(push(m, t))
duty imply.2
  [] conjecture
  qed

% ~ isHere(init, i)
duty imply.3
  [] conjecture
  qed

% ~ isHere(enter(t), i)
duty imply.4
  [] conjecture
  qed

% isHere(add(push(m, t), j, a), i) == (i = j) \/ isHere(push(m, t), i)
duty imply.5
  [] conjecture
  qed

% ~ isThere(init, i)
duty imply.6
  [] conjecture
  qed

% isThere(enter(t), i) == isThere(t, i)
duty imply.7
  [] conjecture
  qed

% isThere(add(push(m, t), j, a), i) == (i = j) \/ isThere(push(m, t), i)
duty imply.8
  resume by cases i = j
  <> case ic = jc
  [] case ic = jc
  <> case ~(ic = jc)
  [] case ~(ic = jc)
  [] conjecture
  qed

% retrieve(enter(t), i) == retrieve(t, i)
duty imply.9
  [] conjecture
  qed

% retrieve(add(push(m, t), j, a), i) == if (i = j) then a else retrieve(push(m, t), i)
duty imply.10
  resume by cases i = j
  <> case ic = jc
  [] case ic = jc
  <> case ~(ic = jc)
  [] case ~(ic = jc)
  [] conjecture
  qed

% init == init'
duty convert.1
  [] conjecture
  qed

% enter(x1) == enter'(x1)
duty convert.2
  [] conjecture
  qed

% leave(x1) == leave'(x1)
duty convert.3
  [] conjecture
  qed

% add(x1, x2, x3) == add'(x1, x2, x3)
duty convert.4
  resume by induction on x1
  <> basis empty
  [] basis empty
  <> step push(ac, x1c)
  [] step push(ac, x1c)
  [] conjecture
  qed

% isHere(x1, x2) == isHere'(x1, x2)
duty convert.5
  resume by induction on x1
  <> basis empty
  [] basis empty
  <> step push(ac, x1c)
  [] step push(ac, x1c)
  [] conjecture
  qed

% isThere(x1, x2) == isThere'(x1, x2)
duty convert.6
  resume by induction on x1
  <> basis empty
  [] basis empty
  <> step push(ac, x1c)
  [] step push(ac, x1c)
  [] conjecture
  qed

% retrieve(x1, x2) == retrieve'(x1, x2)
duty convert.7
  resume by induction on x1
  <> basis empty
  [] basis empty
  <> step push(ac, x1c)
  [] step push(ac, x1c)
  [] conjecture
  qed
