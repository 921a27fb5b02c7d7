declare variables m, n: N
set box-checking on

% 0 + n == n
duty imply.1
  resume by induction on n
  <> basis 0
  [] basis 0
  <> step s(nc)
  [] step s(nc)
  [] conjecture
  qed

% s(m) + n == s(m + n)
duty imply.2
  resume by induction on n
  <> basis 0
  [] basis 0
  <> step s(nc)
  [] step s(nc)
  [] conjecture
  qed

% m + n == n + m
duty imply.3
  resume by induction on m
  <> basis 0
  [] basis 0
  <> step s(mc)
  [] step s(mc)
  [] conjecture
  qed

% value(increment(a)) == s(value(a))
duty imply.4
  resume by induction on a
  <> basis nothing
  [] basis nothing
  <> step ac \with ac1
    resume by cases ac1
    <> case ac1
    [] case ac1
    <> case ~(ac1)
    [] case ~(ac1)
  [] step ac \with ac1
  [] conjecture
  qed

% value(carry(a, p)) == value(a) + digit(p)
duty imply.5
  resume by cases p
  <> case pc
  [] case pc
  <> case ~(pc)
  [] case ~(pc)
  [] conjecture
  qed

% value(numeral(n)) == n
duty imply.6
  resume by induction on n
  <> basis 0
  [] basis 0
  <> step s(nc)
  [] step s(nc)
  [] conjecture
  qed

% (numeral(m) = numeral(n)) => (m = n)
duty imply.7
  resume by =>
  <> implication
    critical-pairs L6 with H1
  [] implication
  [] conjecture
  qed

% value(a \with false) == value(a) + value(a)
duty imply.8
  [] conjecture
  qed

% value(increment(a \with false)) == value(a \with true)
duty imply.9
  [] conjecture
  qed

% value(nothing \with false) == value(nothing)
duty imply.10
  [] conjecture
  qed

% value(increment(increment(a))) == s(s(value(a)))
duty imply.11
  [] conjecture
  qed

% digit(x1) == digit'(x1)
duty convert.1
  [] conjecture
  qed

% value(x1) == value'(x1)
duty convert.2
  resume by induction on x1
  <> basis nothing
  [] basis nothing
  <> step x1c \with ac
  [] step x1c \with ac
  [] conjecture
  qed

% increment(x1) == increment'(x1)
duty convert.3
  resume by induction on x1
  <> basis nothing
  [] basis nothing
  <> step x1c \with ac
  [] step x1c \with ac
  [] conjecture
  qed

% carry(x1, x2) == carry'(x1, x2)
duty convert.4
  [] conjecture
  qed

% numeral(x1) == numeral'(x1)
duty convert.5
  resume by induction on x1
  <> basis 0
  [] basis 0
  <> step s(x1c)
  [] step s(x1c)
  [] conjecture
  qed
