set box-checking on

% (x ++ y) ++ z == x ++ (y ++ z)
duty imply.1
  resume by induction on x
  <> basis nil
  [] basis nil
  <> step cons(ac, xc)
  [] step cons(ac, xc)
  [] conjecture
  qed

% nil ++ x == x
duty imply.2
  [] conjecture
  qed

% x ++ nil == x
duty imply.3
  resume by induction on x
  <> basis nil
  [] basis nil
  <> step cons(ac, xc)
  [] step cons(ac, xc)
  [] conjecture
  qed

% s(m) + n == s(m + n)
duty imply.4
  resume by induction on n
  <> basis 0
  [] basis 0
  <> step s(nc)
  [] step s(nc)
  [] conjecture
  qed

% 0 + n == n
duty imply.5
  resume by induction on n
  <> basis 0
  [] basis 0
  <> step s(nc)
  [] step s(nc)
  [] conjecture
  qed

% take(n, nil) == nil
duty imply.6
  resume by induction on n
  <> basis 0
  [] basis 0
  <> step s(nc)
  [] step s(nc)
  [] conjecture
  qed

% drop(n, nil) == nil
duty imply.7
  resume by induction on n
  <> basis 0
  [] basis 0
  <> step s(nc)
  [] step s(nc)
  [] conjecture
  qed

% take(n, l) ++ drop(n, l) == l
duty imply.8
  resume by induction on n
  <> basis 0
  [] basis 0
  <> step s(nc)
    resume by induction on l
    <> basis nil
    [] basis nil
    <> step cons(ac, lc)
    [] step cons(ac, lc)
  [] step s(nc)
  [] conjecture
  qed

% drop(m, drop(n, l)) == drop(n + m, l)
duty imply.9
  resume by induction on n
  <> basis 0
  [] basis 0
  <> step s(nc)
    resume by induction on l
    <> basis nil
    [] basis nil
    <> step cons(ac, lc)
    [] step cons(ac, lc)
  [] step s(nc)
  [] conjecture
  qed

% take(n, take(n, l)) == take(n, l)
duty imply.10
  resume by induction on n
  <> basis 0
  [] basis 0
  <> step s(nc)
    resume by induction on l
    <> basis nil
    [] basis nil
    <> step cons(ac, lc)
    [] step cons(ac, lc)
  [] step s(nc)
  [] conjecture
  qed

% take(length(l), l) == l
duty imply.11
  resume by induction on l
  <> basis nil
  [] basis nil
  <> step cons(ac, lc)
  [] step cons(ac, lc)
  [] conjecture
  qed

% drop(length(l), l) == nil
duty imply.12
  resume by induction on l
  <> basis nil
  [] basis nil
  <> step cons(ac, lc)
  [] step cons(ac, lc)
  [] conjecture
  qed

% take(length(k), k ++ l) == k
duty imply.13
  resume by induction on k
  <> basis nil
  [] basis nil
  <> step cons(ac, kc)
  [] step cons(ac, kc)
  [] conjecture
  qed

% drop(length(k), k ++ l) == l
duty imply.14
  resume by induction on k
  <> basis nil
  [] basis nil
  <> step cons(ac, kc)
  [] step cons(ac, kc)
  [] conjecture
  qed

% (drop(n, l) = l) \/ (take(n, l) ~= nil)
duty imply.15
  resume by cases take(n, l) = nil
  <> case take(nc, lc) = nil
    critical-pairs L8 with H1
  [] case take(nc, lc) = nil
  <> case ~(take(nc, lc) = nil)
  [] case ~(take(nc, lc) = nil)
  [] conjecture
  qed

% length(take(n, l)) + length(drop(n, l)) == length(l)
duty imply.16
  resume by induction on n
  <> basis 0
  [] basis 0
  <> step s(nc)
    resume by induction on l
    <> basis nil
    [] basis nil
    <> step cons(ac, lc)
    [] step cons(ac, lc)
  [] step s(nc)
  [] conjecture
  qed

% take(x1, x2) == take'(x1, x2)
duty convert.1
  resume by induction on x1
  <> basis 0
  [] basis 0
  <> step s(x1c)
    resume by induction on x2
    <> basis nil
    [] basis nil
    <> step cons(ac, x2c)
    [] step cons(ac, x2c)
  [] step s(x1c)
  [] conjecture
  qed

% drop(x1, x2) == drop'(x1, x2)
duty convert.2
  resume by induction on x1
  <> basis 0
  [] basis 0
  <> step s(x1c)
    resume by induction on x2
    <> basis nil
    [] basis nil
    <> step cons(ac, x2c)
    [] step cons(ac, x2c)
  [] step s(x1c)
  [] conjecture
  qed
