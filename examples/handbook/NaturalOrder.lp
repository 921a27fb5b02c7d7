set box-checking on

% x <= x
duty assume.1
  resume by induction on x
  <> basis 0
  [] basis 0
  <> step s(xc)
  [] step s(xc)
  [] conjecture
  qed

% ((x <= y) /\ (y <= z)) => (x <= z)
duty assume.2
  resume by induction on x
  <> basis 0
  [] basis 0
  <> step s(xc)
    resume by induction on y
    <> basis 0
    [] basis 0
    <> step s(yc)
      resume by induction on z
      <> basis 0
      [] basis 0
      <> step s(zc)
      [] step s(zc)
    [] step s(yc)
  [] step s(xc)
  [] conjecture
  qed

% ((x <= y) /\ (y <= x)) => (x = y)
duty assume.3
  resume by induction on x
  <> basis 0
    resume by induction on y
    <> basis 0
    [] basis 0
    <> step s(yc)
    [] step s(yc)
  [] basis 0
  <> step s(xc)
    resume by induction on y
    <> basis 0
    [] basis 0
    <> step s(yc1)
    [] step s(yc1)
  [] step s(xc)
  [] conjecture
  qed

% (x <= y) \/ (y <= x)
duty assume.4
  resume by induction on x
  <> basis 0
  [] basis 0
  <> step s(xc)
    resume by induction on y
    <> basis 0
    [] basis 0
    <> step s(yc)
    [] step s(yc)
  [] step s(xc)
  [] conjecture
  qed

% 0 + n == n
duty imply.1
  resume by induction on n
  <> basis 0
  [] basis 0
  <> step s(nc)
  [] step s(nc)
  [] conjecture
  qed

% s(m) + n == s(m + n)
duty imply.2
  resume by induction on n
  <> basis 0
  [] basis 0
  <> step s(nc)
  [] step s(nc)
  [] conjecture
  qed

% m + n == n + m
duty imply.3
  resume by induction on m
  <> basis 0
  [] basis 0
  <> step s(mc)
  [] step s(mc)
  [] conjecture
  qed

% n <= 0 == n = 0
duty imply.4
  resume by induction on n
  <> basis 0
  [] basis 0
  <> step s(nc)
  [] step s(nc)
  [] conjecture
  qed

% n <= s(n)
duty imply.5
  resume by induction on n
  <> basis 0
  [] basis 0
  <> step s(nc)
  [] step s(nc)
  [] conjecture
  qed

% n < s(n)
duty imply.6
  resume by induction on n
  <> basis 0
  [] basis 0
  <> step s(nc)
  [] step s(nc)
  [] conjecture
  qed

% ~ (n < 0)
duty imply.7
  [] conjecture
  qed

% (m <= n) => (m <= s(n))
duty imply.8
  resume by induction on m
  <> basis 0
  [] basis 0
  <> step s(mc)
    resume by induction on n
    <> basis 0
    [] basis 0
    <> step s(nc)
    [] step s(nc)
  [] step s(mc)
  [] conjecture
  qed

% m <= s(n) == (m <= n) \/ (m = s(n))
duty imply.9
  resume by induction on m
  <> basis 0
  [] basis 0
  <> step s(mc)
    resume by induction on n
    <> basis 0
    [] basis 0
    <> step s(nc)
    [] step s(nc)
  [] step s(mc)
  [] conjecture
  qed

% m < s(n) == m <= n
duty imply.10
  resume by induction on m
  <> basis 0
  [] basis 0
  <> step s(mc)
    resume by induction on n
    <> basis 0
    [] basis 0
    <> step s(nc)
    [] step s(nc)
  [] step s(mc)
  [] conjecture
  qed

% m < n == s(m) <= n
duty imply.11
  resume by induction on n
  <> basis 0
  [] basis 0
  <> step s(nc)
  [] step s(nc)
  [] conjecture
  qed

% m <= (m + n)
duty imply.12
  resume by induction on m
  <> basis 0
  [] basis 0
  <> step s(mc)
  [] step s(mc)
  [] conjecture
  qed

% n <= (m + n)
duty imply.13
  resume by induction on n
  <> basis 0
  [] basis 0
  <> step s(nc)
  [] step s(nc)
  [] conjecture
  qed

% (m + k) <= (n + k) == m <= n
duty imply.14
  resume by induction on k
  <> basis 0
  [] basis 0
  <> step s(kc)
  [] step s(kc)
  [] conjecture
  qed

% (k + m) <= (k + n) == m <= n
duty imply.15
  resume by induction on k
  <> basis 0
  [] basis 0
  <> step s(kc)
  [] step s(kc)
  [] conjecture
  qed

% (m + k) < (n + k) == m < n
duty imply.16
  [] conjecture
  qed

% min(0, n) == 0
duty imply.17
  [] conjecture
  qed

% max(0, n) == n
duty imply.18
  [] conjecture
  qed

% min(s(m), s(n)) == s(min(m, n))
duty imply.19
  resume by cases m <= n
  <> case mc <= nc
  [] case mc <= nc
  <> case ~(mc <= nc)
  [] case ~(mc <= nc)
  [] conjecture
  qed

% max(s(m), s(n)) == s(max(m, n))
duty imply.20
  resume by cases m <= n
  <> case mc <= nc
  [] case mc <= nc
  <> case ~(mc <= nc)
  [] case ~(mc <= nc)
  [] conjecture
  qed

% min(m, n) + max(m, n) == m + n
duty imply.21
  resume by cases m <= n
  <> case mc <= nc
  [] case mc <= nc
  <> case ~(mc <= nc)
  [] case ~(mc <= nc)
  [] conjecture
  qed

% x1 <= x2 == conv1'(x1, x2)
duty convert.1
  [] conjecture
  qed
