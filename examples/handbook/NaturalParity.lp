set box-checking on

% s(m) + n == s(m + n)
duty imply.1
  resume by induction on n
  <> basis 0
  [] basis 0
  <> step s(nc)
  [] step s(nc)
  [] conjecture
  qed

% even(n) \/ even(s(n))
duty imply.2
  [] conjecture
  qed

% double(n) == n + n
duty imply.3
  resume by induction on n
  <> basis 0
  [] basis 0
  <> step s(nc)
  [] step s(nc)
  [] conjecture
  qed

% double(m + n) == double(m) + double(n)
duty imply.4
  resume by induction on n
  <> basis 0
  [] basis 0
  <> step s(nc)
  [] step s(nc)
  [] conjecture
  qed

% even(double(n))
duty imply.5
  resume by induction on n
  <> basis 0
  [] basis 0
  <> step s(nc)
  [] step s(nc)
  [] conjecture
  qed

% odd(s(double(n)))
duty imply.6
  [] conjecture
  qed

% even(m + n) == even(m) <=> even(n)
duty imply.7
  resume by induction on n
  <> basis 0
  [] basis 0
  <> step s(nc)
    resume by cases even(m)
    <> case even(mc)
    [] case even(mc)
    <> case ~(even(mc))
    [] case ~(even(mc))
  [] step s(nc)
  [] conjecture
  qed

% even(n + n)
duty imply.8
  [] conjecture
  qed

% half(double(n)) == n
duty imply.9
  resume by induction on n
  <> basis 0
  [] basis 0
  <> step s(nc)
  [] step s(nc)
  [] conjecture
  qed

% half(s(double(n))) == n
duty imply.10
  [] conjecture
  qed

% n == if even(n) then double(half(n)) else s(double(half(n)))
duty imply.11
  resume by induction on n
  <> basis 0
  [] basis 0
  <> step s(nc)
    resume by cases even(nc)
    <> case even(nc)
      normalize H1
    [] case even(nc)
    <> case ~(even(nc))
      normalize H1
    [] case ~(even(nc))
  [] step s(nc)
  [] conjecture
  qed

% even(n) => (double(half(n)) = n)
duty imply.12
  resume by =>
  <> implication
    instantiate n by nc in L11
  [] implication
  [] conjecture
  qed

% odd(n) => (s(double(half(n))) = n)
duty imply.13
  resume by =>
  <> implication
    instantiate n by nc in L11
  [] implication
  [] conjecture
  qed

% double(m) = double(n) == m = n
duty imply.14
  resume by cases (m + m) = (n + n)
  <> case (mc + mc) = (nc + nc)
    critical-pairs L9 with H1
  [] case (mc + mc) = (nc + nc)
  <> case ~((mc + mc) = (nc + nc))
    resume by cases mc = nc
    <> case mc = nc
      normalize H2
    [] case mc = nc
    <> case ~(mc = nc)
    [] case ~(mc = nc)
  [] case ~((mc + mc) = (nc + nc))
  [] conjecture
  qed

% double(m) ~= s(double(n))
duty imply.15
  resume by induction on m
  <> basis 0
  [] basis 0
  <> step s(mc)
    resume by induction on n
    <> basis 0
    [] basis 0
    <> step s(nc)
    [] step s(nc)
  [] step s(mc)
  [] conjecture
  qed

% even(x1) == even'(x1)
duty convert.1
  resume by induction on x1
  <> basis 0
  [] basis 0
  <> step s(x1c)
  [] step s(x1c)
  [] conjecture
  qed

% odd(x1) == odd'(x1)
duty convert.2
  [] conjecture
  qed

% double(x1) == double'(x1)
duty convert.3
  resume by induction on x1
  <> basis 0
  [] basis 0
  <> step s(x1c)
  [] step s(x1c)
  [] conjecture
  qed

% half(x1) == half'(x1)
duty convert.4
  resume by induction on x1
  <> basis 0
  [] basis 0
  <> step s(x1c)
  [] step s(x1c)
  [] conjecture
  qed
