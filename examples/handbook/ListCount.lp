set box-checking on

% s(m) + n == s(m + n)
duty imply.1
  resume by induction on n
  <> basis 0
  [] basis 0
  <> step s(nc)
  [] step s(nc)
  [] conjecture
  qed

% m + n == n + m
duty imply.2
  resume by induction on m
  <> basis 0
    resume by induction on n
    <> basis 0
    [] basis 0
    <> step s(nc)
    [] step s(nc)
  [] basis 0
  <> step s(mc)
  [] step s(mc)
  [] conjecture
  qed

% 0 + n == n
duty imply.3
  resume by induction on n
  <> basis 0
  [] basis 0
  <> step s(nc)
  [] step s(nc)
  [] conjecture
  qed

% count(e, single(e)) == 1
duty imply.4
  [] conjecture
  qed

% count(e, k ++ l) == count(e, k) + count(e, l)
duty imply.5
  resume by induction on k
  <> basis nil
  [] basis nil
  <> step cons(ac, kc)
    resume by cases e = ac
    <> case ec = ac
    [] case ec = ac
    <> case ~(ec = ac)
    [] case ~(ec = ac)
  [] step cons(ac, kc)
  [] conjecture
  qed

% count(e, k ++ l) == count(e, l ++ k)
duty imply.6
  [] conjecture
  qed

% count(e, reverse(l)) == count(e, l)
duty imply.7
  resume by induction on l
  <> basis nil
  [] basis nil
  <> step cons(ac, lc)
    resume by cases e = ac
    <> case ec = ac
    [] case ec = ac
    <> case ~(ec = ac)
    [] case ~(ec = ac)
  [] step cons(ac, lc)
  [] conjecture
  qed

% e \in l == count(e, l) ~= 0
duty imply.8
  resume by induction on l
  <> basis nil
  [] basis nil
  <> step cons(ac, lc)
    resume by cases e = ac
    <> case ec = ac
    [] case ec = ac
    <> case ~(ec = ac)
    [] case ~(ec = ac)
  [] step cons(ac, lc)
  [] conjecture
  qed

% (~ (e \in l)) => (count(e, l) = 0)
duty imply.9
  [] conjecture
  qed

% count(x1, x2) == count'(x1, x2)
duty convert.1
  resume by induction on x2
  <> basis nil
  [] basis nil
  <> step cons(ac, x2c)
  [] step cons(ac, x2c)
  [] conjecture
  qed

% x1 \in x2 == conv2'(x1, x2)
duty convert.2
  resume by induction on x2
  <> basis nil
  [] basis nil
  <> step cons(ac, x2c)
    resume by cases x1 = ac
    <> case x1c = ac
    [] case x1c = ac
    <> case ~(x1c = ac)
    [] case ~(x1c = ac)
  [] step cons(ac, x2c)
  [] conjecture
  qed
