set box-checking on

% 0 + n == n
duty imply.1
  resume by induction on n
  <> basis 0
  [] basis 0
  <> step s(nc)
  [] step s(nc)
  [] conjecture
  qed

% s(m) + n == s(m + n)
duty imply.2
  resume by induction on n
  <> basis 0
  [] basis 0
  <> step s(nc)
  [] step s(nc)
  [] conjecture
  qed

% n <= 0 == n = 0
duty imply.3
  resume by induction on n
  <> basis 0
  [] basis 0
  <> step s(nc)
  [] step s(nc)
  [] conjecture
  qed

% ((n <= s(m)) /\ (s(m) ~= n)) => (n <= m)
duty imply.4
  resume by induction on n
  <> basis 0
  [] basis 0
  <> step s(nc)
    resume by induction on m
    <> basis 0
      resume by cases nc = 0
      <> case nc = 0
      [] case nc = 0
      <> case ~(nc = 0)
      [] case ~(nc = 0)
    [] basis 0
    <> step s(mc)
    [] step s(mc)
  [] step s(nc)
  [] conjecture
  qed

% (n ~= 0) => (mod(m, n) < n)
duty imply.5
  resume by induction on m
  <> basis 0
  [] basis 0
  <> step s(mc)
    resume by cases s(mod(mc, n)) = n
    <> case s(mod(mc, nc)) = nc
    [] case s(mod(mc, nc)) = nc
    <> case ~(s(mod(mc, nc)) = nc)
      resume by =>
      <> implication
        resume by contradiction
        <> contradiction
          instantiate n by nc, m by mod(mc, nc) in L4
          instantiate n by nc in H1
        [] contradiction
      [] implication
    [] case ~(s(mod(mc, nc)) = nc)
  [] step s(mc)
  [] conjecture
  qed

% (n * div(m, n)) + mod(m, n) == m
duty imply.6
  resume by induction on m
  <> basis 0
  [] basis 0
  <> step s(mc)
    resume by cases s(mod(mc, n)) = n
    <> case s(mod(mc, nc)) = nc
      critical-pairs A6 with H2
      instantiate v1 by nc * div(mc, nc) in D1
    [] case s(mod(mc, nc)) = nc
    <> case ~(s(mod(mc, nc)) = nc)
    [] case ~(s(mod(mc, nc)) = nc)
  [] step s(mc)
  [] conjecture
  qed

% mod(m, s(0)) == 0
duty imply.7
  resume by induction on m
  <> basis 0
  [] basis 0
  <> step s(mc)
  [] step s(mc)
  [] conjecture
  qed

% div(m, s(0)) == m
duty imply.8
  resume by induction on m
  <> basis 0
  [] basis 0
  <> step s(mc)
  [] step s(mc)
  [] conjecture
  qed

% mod(m, 0) == m
duty imply.9
  resume by induction on m
  <> basis 0
  [] basis 0
  <> step s(mc)
  [] step s(mc)
  [] conjecture
  qed

% div(m, 0) == 0
duty imply.10
  resume by induction on m
  <> basis 0
  [] basis 0
  <> step s(mc)
  [] step s(mc)
  [] conjecture
  qed

% mod(x1, x2) == mod'(x1, x2)
duty convert.1
  resume by induction on x1
  <> basis 0
  [] basis 0
  <> step s(x1c)
  [] step s(x1c)
  [] conjecture
  qed

% div(x1, x2) == div'(x1, x2)
duty convert.2
  resume by induction on x1
  <> basis 0
  [] basis 0
  <> step s(x1c)
  [] step s(x1c)
  [] conjecture
  qed
