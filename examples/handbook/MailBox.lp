set box-checking on

% n <= s(n)
duty imply.1
  resume by induction on n
  <> basis 0
  [] basis 0
  <> step s(nc)
  [] step s(nc)
  [] conjecture
  qed

% isEmpty(q) => (q = empty)
duty imply.2
  resume by induction on q
  <> basis empty
  [] basis empty
  <> step add(qc, ac)
  [] step add(qc, ac)
  [] conjecture
  qed

% (~ isEmpty(q)) => (s(size(rest(q))) = size(q))
duty imply.3
  resume by induction on q
  <> basis empty
  [] basis empty
  <> step add(qc, ac)
    register height qc > empty
    resume by cases isEmpty(qc)
    <> case isEmpty(qc)
      instantiate q by qc in L2
    [] case isEmpty(qc)
    <> case ~(isEmpty(qc))
      normalize H1
    [] case ~(isEmpty(qc))
  [] step add(qc, ac)
  [] conjecture
  qed

% (k <= n) => (k <= s(n))
duty imply.4
  resume by induction on k
  <> basis 0
  [] basis 0
  <> step s(kc)
    resume by induction on n
    <> basis 0
    [] basis 0
    <> step s(nc)
    [] step s(nc)
  [] step s(kc)
  [] conjecture
  qed

% (s(k) <= n) => (k <= n)
duty imply.5
  resume by induction on n
  <> basis 0
  [] basis 0
  <> step s(nc)
  [] step s(nc)
  [] conjecture
  qed

% k < n == s(k) <= n
duty imply.6
  resume by induction on n
  <> basis 0
  [] basis 0
  <> step s(nc)
    resume by induction on k
    <> basis 0
    [] basis 0
    <> step s(kc)
    [] step s(kc)
  [] step s(nc)
  [] conjecture
  qed

% isRight(new)
duty imply.7
  [] conjecture
  qed

% isRight(b) => isRight(send(b, m))
duty imply.8
  resume by induction on b
  <> basis [ac, ac1]
    resume by cases room <= size(ac)
    <> case room <= size(ac)
    [] case room <= size(ac)
    <> case ~(room <= size(ac))
      instantiate k by size(ac), n by room in L6
    [] case ~(room <= size(ac))
  [] basis [ac, ac1]
  [] conjecture
  qed

% isRight(b) => isRight(receive(b))
duty imply.9
  resume by induction on b
  <> basis [ac, ac1]
    resume by cases isEmpty(ac)
    <> case isEmpty(ac)
    [] case isEmpty(ac)
    <> case ~(isEmpty(ac))
      instantiate q by ac in L3
      instantiate k by size(rest(ac)), n by room in L5
    [] case ~(isEmpty(ac))
  [] basis [ac, ac1]
  [] conjecture
  qed

% isFull(b) => ((send(b, m).letters) = (b.letters))
duty imply.10
  resume by induction on b
  <> basis [ac, ac1]
    resume by =>
    <> implication
    [] implication
  [] basis [ac, ac1]
  [] conjecture
  qed

% (~ isFull(b)) => ((send(b, m).lost) = (b.lost))
duty imply.11
  resume by induction on b
  <> basis [ac, ac1]
    resume by =>
    <> implication
    [] implication
  [] basis [ac, ac1]
  [] conjecture
  qed

% receive(b).lost == b.lost
duty imply.12
  resume by induction on b
  <> basis [ac, ac1]
    resume by cases isEmpty(ac)
    <> case isEmpty(ac)
    [] case isEmpty(ac)
    <> case ~(isEmpty(ac))
    [] case ~(isEmpty(ac))
  [] basis [ac, ac1]
  [] conjecture
  qed

% n <= 0 == n = 0
duty imply.13
  resume by induction on n
  <> basis 0
  [] basis 0
  <> step s(nc)
  [] step s(nc)
  [] conjecture
  qed

% (room ~= 0) => (~ isFull(new))
duty imply.14
  [] conjecture
  qed

% (room ~= 0) => (receive(send(new, m)) = new)
duty imply.15
  resume by =>
  <> implication
  [] implication
  [] conjecture
  qed

% new == new'
duty convert.1
  [] conjecture
  qed

% isFull(x1) == isFull'(x1)
duty convert.2
  [] conjecture
  qed

% send(x1, x2) == send'(x1, x2)
duty convert.3
  [] conjecture
  qed

% receive(x1) == receive'(x1)
duty convert.4
  [] conjecture
  qed

% isRight(x1) == isRight'(x1)
duty convert.5
  [] conjecture
  qed
