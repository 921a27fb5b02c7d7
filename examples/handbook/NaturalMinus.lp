set box-checking on

% 0 + n == n
duty imply.1
  resume by induction on n
  <> basis 0
  [] basis 0
  <> step s(nc)
  [] step s(nc)
  [] conjecture
  qed

% s(m) + n == s(m + n)
duty imply.2
  resume by induction on n
  <> basis 0
  [] basis 0
  <> step s(nc)
  [] step s(nc)
  [] conjecture
  qed

% m + n == n + m
duty imply.3
  resume by induction on m
  <> basis 0
  [] basis 0
  <> step s(mc)
  [] step s(mc)
  [] conjecture
  qed

% 0 - n == 0
duty imply.4
  resume by induction on n
  <> basis 0
  [] basis 0
  <> step s(nc)
  [] step s(nc)
  [] conjecture
  qed

% s(m) - s(n) == m - n
duty imply.5
  resume by induction on n
  <> basis 0
  [] basis 0
  <> step s(nc)
  [] step s(nc)
  [] conjecture
  qed

% n - n == 0
duty imply.6
  resume by induction on n
  <> basis 0
  [] basis 0
  <> step s(nc)
  [] step s(nc)
  [] conjecture
  qed

% (m + n) - n == m
duty imply.7
  resume by induction on n
  <> basis 0
  [] basis 0
  <> step s(nc)
  [] step s(nc)
  [] conjecture
  qed

% (m + n) - m == n
duty imply.8
  resume by induction on m
  <> basis 0
  [] basis 0
  <> step s(mc)
  [] step s(mc)
  [] conjecture
  qed

% (m - n) = 0 == m <= n
duty imply.9
  resume by induction on m
  <> basis 0
  [] basis 0
  <> step s(mc)
    resume by induction on n
    <> basis 0
    [] basis 0
    <> step s(nc)
    [] step s(nc)
  [] step s(mc)
  [] conjecture
  qed

% (m <= n) => (((n - m) + m) = n)
duty imply.10
  resume by induction on m
  <> basis 0
  [] basis 0
  <> step s(mc)
    resume by induction on n
    <> basis 0
    [] basis 0
    <> step s(nc)
    [] step s(nc)
  [] step s(mc)
  [] conjecture
  qed

% (n - m) + m == max(m, n)
duty imply.11
  resume by induction on n
  <> basis 0
    resume by induction on m
    <> basis 0
    [] basis 0
    <> step s(mc)
    [] step s(mc)
  [] basis 0
  <> step s(nc)
    resume by induction on m
    <> basis 0
    [] basis 0
    <> step s(mc1)
      resume by cases mc1 <= nc
      <> case mc1 <= nc
      [] case mc1 <= nc
      <> case ~(mc1 <= nc)
      [] case ~(mc1 <= nc)
    [] step s(mc1)
  [] step s(nc)
  [] conjecture
  qed

% m - (n + k) == (m - n) - k
duty imply.12
  resume by induction on k
  <> basis 0
  [] basis 0
  <> step s(kc)
  [] step s(kc)
  [] conjecture
  qed

% (m - n) - k == (m - k) - n
duty imply.13
  resume by contradiction
  <> contradiction
    instantiate m by nc, n by kc in L3
    normalize H1
  [] contradiction
  [] conjecture
  qed

% (m + k) - (n + k) == m - n
duty imply.14
  resume by induction on k
  <> basis 0
  [] basis 0
  <> step s(kc)
  [] step s(kc)
  [] conjecture
  qed

% n <= n
duty imply.15
  resume by induction on n
  <> basis 0
  [] basis 0
  <> step s(nc)
  [] step s(nc)
  [] conjecture
  qed

% (m <= n) => (m <= s(n))
duty imply.16
  resume by induction on m
  <> basis 0
  [] basis 0
  <> step s(mc)
    resume by induction on n
    <> basis 0
    [] basis 0
    <> step s(nc)
    [] step s(nc)
  [] step s(mc)
  [] conjecture
  qed

% (m <= n) => (pred(m) <= n)
duty imply.17
  resume by induction on m
  <> basis 0
  [] basis 0
  <> step s(mc)
    resume by induction on n
    <> basis 0
    [] basis 0
    <> step s(nc)
    [] step s(nc)
  [] step s(mc)
  [] conjecture
  qed

% (m <= n) => (pred(m) <= pred(n))
duty imply.18
  resume by induction on m
  <> basis 0
  [] basis 0
  <> step s(mc)
    resume by induction on n
    <> basis 0
    [] basis 0
    <> step s(nc)
    [] step s(nc)
  [] step s(mc)
  [] conjecture
  qed

% (m - n) <= m
duty imply.19
  resume by induction on n
  <> basis 0
  [] basis 0
  <> step s(nc)
    instantiate m by m - nc, n by m in L17
  [] step s(nc)
  [] conjecture
  qed

% (m <= n) => ((m - k) <= (n - k))
duty imply.20
  resume by induction on k
  <> basis 0
  [] basis 0
  <> step s(kc)
    resume by =>
    <> implication
      instantiate m by mc, n by nc in H1
      instantiate m by mc - kc, n by nc - kc in L18
    [] implication
  [] step s(kc)
  [] conjecture
  qed

% pred(x1) == pred'(x1)
duty convert.1
  resume by induction on x1
  <> basis 0
  [] basis 0
  <> step s(x1c)
  [] step s(x1c)
  [] conjecture
  qed

% x1 - x2 == conv2'(x1, x2)
duty convert.2
  resume by induction on x2
  <> basis 0
  [] basis 0
  <> step s(x2c)
  [] step s(x2c)
  [] conjecture
  qed
