set box-checking on

% m < n == s(m) <= n
duty imply.1
  resume by induction on n
  <> basis 0
  [] basis 0
  <> step s(nc)
    resume by induction on m
    <> basis 0
    [] basis 0
    <> step s(mc)
    [] step s(mc)
  [] step s(nc)
  [] conjecture
  qed

% n <= s(n)
duty imply.2
  resume by induction on n
  <> basis 0
  [] basis 0
  <> step s(nc)
  [] step s(nc)
  [] conjecture
  qed

% (s(m) <= n) => (m <= n)
duty imply.3
  resume by induction on n
  <> basis 0
  [] basis 0
  <> step s(nc)
    resume by induction on m
    <> basis 0
    [] basis 0
    <> step s(mc)
    [] step s(mc)
  [] step s(nc)
  [] conjecture
  qed

% pred(n) <= n
duty imply.4
  resume by induction on n
  <> basis 0
  [] basis 0
  <> step s(nc)
  [] step s(nc)
  [] conjecture
  qed

% (m <= n) => (pred(m) <= n)
duty imply.5
  resume by induction on m
  <> basis 0
  [] basis 0
  <> step s(mc)
  [] step s(mc)
  [] conjecture
  qed

% isInHouse(start)
duty imply.6
  [] conjecture
  qed

% isInHouse(l) => isInHouse(up(l))
duty imply.7
  resume by induction on l
  <> basis [ac, ac1]
    resume by cases ac1 \/ (highest <= ac)
    <> case ac1 \/ (highest <= ac)
    [] case ac1 \/ (highest <= ac)
    <> case ~(ac1 \/ (highest <= ac))
      instantiate m by ac, n by highest in L1
    [] case ~(ac1 \/ (highest <= ac))
  [] basis [ac, ac1]
  [] conjecture
  qed

% isInHouse(l) => isInHouse(down(l))
duty imply.8
  resume by induction on l
  <> basis [ac, ac1]
    resume by cases ac1 \/ (ac = 0)
    <> case ac1 \/ (ac = 0)
    [] case ac1 \/ (ac = 0)
    <> case ~(ac1 \/ (ac = 0))
    [] case ~(ac1 \/ (ac = 0))
  [] basis [ac, ac1]
  [] conjecture
  qed

% isInHouse(open(l)) == isInHouse(l)
duty imply.9
  resume by induction on l
  <> basis [ac, ac1]
  [] basis [ac, ac1]
  [] conjecture
  qed

% isInHouse(close(l)) == isInHouse(l)
duty imply.10
  resume by induction on l
  <> basis [ac, ac1]
  [] basis [ac, ac1]
  [] conjecture
  qed

% (l.isOpen) => (up(l) = l)
duty imply.11
  resume by =>
  <> implication
  [] implication
  [] conjecture
  qed

% (l.isOpen) => (down(l) = l)
duty imply.12
  resume by =>
  <> implication
  [] implication
  [] conjecture
  qed

% up(l).isOpen == l.isOpen
duty imply.13
  resume by induction on l
  <> basis [ac, ac1]
    resume by cases ac1
    <> case ac1
    [] case ac1
    <> case ~(ac1)
      resume by cases highest <= ac
      <> case highest <= ac
      [] case highest <= ac
      <> case ~(highest <= ac)
      [] case ~(highest <= ac)
    [] case ~(ac1)
  [] basis [ac, ac1]
  [] conjecture
  qed

% down(l).isOpen == l.isOpen
duty imply.14
  resume by induction on l
  <> basis [ac, ac1]
    resume by cases ac1
    <> case ac1
    [] case ac1
    <> case ~(ac1)
      resume by cases ac = 0
      <> case ac = 0
      [] case ac = 0
      <> case ~(ac = 0)
      [] case ~(ac = 0)
    [] case ~(ac1)
  [] basis [ac, ac1]
  [] conjecture
  qed

% ((up(l).floor) ~= (l.floor)) => (~ (l.isOpen))
duty imply.15
  resume by cases l.isOpen
  <> case lc.isOpen
  [] case lc.isOpen
  <> case ~(lc.isOpen)
  [] case ~(lc.isOpen)
  [] conjecture
  qed

% open(close(l)) == open(l)
duty imply.16
  resume by induction on l
  <> basis [ac, ac1]
  [] basis [ac, ac1]
  [] conjecture
  qed

% up(open(l)) == open(l)
duty imply.17
  resume by induction on l
  <> basis [ac, ac1]
  [] basis [ac, ac1]
  [] conjecture
  qed

% (~ (highest <= (l.floor))) => (down(up(close(l))) = close(l))
duty imply.18
  resume by induction on l
  <> basis [ac, ac1]
    resume by =>
    <> implication
    [] implication
  [] basis [ac, ac1]
  [] conjecture
  qed

% start == start'
duty convert.1
  [] conjecture
  qed

% open(x1) == open'(x1)
duty convert.2
  [] conjecture
  qed

% close(x1) == close'(x1)
duty convert.3
  [] conjecture
  qed

% up(x1) == up'(x1)
duty convert.4
  [] conjecture
  qed

% down(x1) == down'(x1)
duty convert.5
  [] conjecture
  qed

% isInHouse(x1) == isInHouse'(x1)
duty convert.6
  [] conjecture
  qed
