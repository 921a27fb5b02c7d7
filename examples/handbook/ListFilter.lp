set box-checking on

% (x ++ y) ++ z == x ++ (y ++ z)
duty imply.1
  resume by induction on x
  <> basis nil
  [] basis nil
  <> step cons(ac, xc)
  [] step cons(ac, xc)
  [] conjecture
  qed

% nil ++ x == x
duty imply.2
  [] conjecture
  qed

% x ++ nil == x
duty imply.3
  resume by induction on x
  <> basis nil
  [] basis nil
  <> step cons(ac, xc)
  [] step cons(ac, xc)
  [] conjecture
  qed

% s(m) + n == s(m + n)
duty imply.4
  resume by induction on n
  <> basis 0
  [] basis 0
  <> step s(nc)
  [] step s(nc)
  [] conjecture
  qed

% filter(k ++ l) == filter(k) ++ filter(l)
duty imply.5
  resume by induction on k
  <> basis nil
  [] basis nil
  <> step cons(ac, kc)
    resume by cases has(ac)
    <> case has(ac)
    [] case has(ac)
    <> case ~(has(ac))
    [] case ~(has(ac))
  [] step cons(ac, kc)
  [] conjecture
  qed

% filter(reverse(l)) == reverse(filter(l))
duty imply.6
  resume by induction on l
  <> basis nil
  [] basis nil
  <> step cons(ac, lc)
    resume by cases has(ac)
    <> case has(ac)
    [] case has(ac)
    <> case ~(has(ac))
    [] case ~(has(ac))
  [] step cons(ac, lc)
  [] conjecture
  qed

% filter(filter(l)) == filter(l)
duty imply.7
  resume by induction on l
  <> basis nil
  [] basis nil
  <> step cons(ac, lc)
    resume by cases has(ac)
    <> case has(ac)
    [] case has(ac)
    <> case ~(has(ac))
    [] case ~(has(ac))
  [] step cons(ac, lc)
  [] conjecture
  qed

% filter(others(l)) == nil
duty imply.8
  resume by induction on l
  <> basis nil
  [] basis nil
  <> step cons(ac, lc)
    resume by cases has(ac)
    <> case has(ac)
    [] case has(ac)
    <> case ~(has(ac))
    [] case ~(has(ac))
  [] step cons(ac, lc)
  [] conjecture
  qed

% all(filter(l))
duty imply.9
  resume by induction on l
  <> basis nil
  [] basis nil
  <> step cons(ac, lc)
    resume by cases has(ac)
    <> case has(ac)
    [] case has(ac)
    <> case ~(has(ac))
    [] case ~(has(ac))
  [] step cons(ac, lc)
  [] conjecture
  qed

% all(k ++ l) == all(k) /\ all(l)
duty imply.10
  resume by induction on k
  <> basis nil
  [] basis nil
  <> step cons(ac, kc)
    resume by cases has(ac)
    <> case has(ac)
    [] case has(ac)
    <> case ~(has(ac))
    [] case ~(has(ac))
  [] step cons(ac, kc)
  [] conjecture
  qed

% all(l) => (filter(l) = l)
duty imply.11
  resume by induction on l
  <> basis nil
  [] basis nil
  <> step cons(ac, lc)
    resume by =>
    <> implication
      normalize H1
    [] implication
  [] step cons(ac, lc)
  [] conjecture
  qed

% all(l) => (others(l) = nil)
duty imply.12
  resume by induction on l
  <> basis nil
  [] basis nil
  <> step cons(ac, lc)
    resume by =>
    <> implication
      normalize H1
    [] implication
  [] step cons(ac, lc)
  [] conjecture
  qed

% any(cons(e, l)) == has(e) \/ any(l)
duty imply.13
  resume by cases has(e)
  <> case has(ec)
  [] case has(ec)
  <> case ~(has(ec))
  [] case ~(has(ec))
  [] conjecture
  qed

% length(filter(l)) + length(others(l)) == length(l)
duty imply.14
  resume by induction on l
  <> basis nil
  [] basis nil
  <> step cons(ac, lc)
    resume by cases has(ac)
    <> case has(ac)
    [] case has(ac)
    <> case ~(has(ac))
    [] case ~(has(ac))
  [] step cons(ac, lc)
  [] conjecture
  qed

% filter(x1) == filter'(x1)
duty convert.1
  resume by induction on x1
  <> basis nil
  [] basis nil
  <> step cons(ac, x1c)
  [] step cons(ac, x1c)
  [] conjecture
  qed

% others(x1) == others'(x1)
duty convert.2
  resume by induction on x1
  <> basis nil
  [] basis nil
  <> step cons(ac, x1c)
  [] step cons(ac, x1c)
  [] conjecture
  qed

% all(x1) == all'(x1)
duty convert.3
  resume by induction on x1
  <> basis nil
  [] basis nil
  <> step cons(ac, x1c)
  [] step cons(ac, x1c)
  [] conjecture
  qed

% any(x1) == any'(x1)
duty convert.4
  [] conjecture
  qed
