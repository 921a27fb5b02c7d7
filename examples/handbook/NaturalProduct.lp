declare variables x, y, z: N
set box-checking on

% (x + y) + z == x + (y + z)
duty imply.1
  resume by induction on z
  <> basis 0
  [] basis 0
  <> step s(zc)
  [] step s(zc)
  [] conjecture
  qed

% 0 + x == x
duty imply.2
  resume by induction on x
  <> basis 0
  [] basis 0
  <> step s(xc)
  [] step s(xc)
  [] conjecture
  qed

% x + 0 == x
duty imply.3
  [] conjecture
  qed

% x + y == y + x
duty imply.4
  resume by induction on x
  <> basis 0
  [] basis 0
  <> step s(xc)
    resume by induction on y
    <> basis 0
    [] basis 0
    <> step s(yc)
      instantiate y by s(yc) in H1
    [] step s(yc)
  [] step s(xc)
  [] conjecture
  qed

% (z + x) = (z + y) == x = y
duty imply.5
  prove s(x) + y == s(x + y)
    resume by induction on y
    <> basis 0
    [] basis 0
    <> step s(yc)
    [] step s(yc)
  [] lemma
  resume by induction on z
  <> basis 0
  [] basis 0
  <> step s(zc)
  [] step s(zc)
  [] conjecture
  qed

% (x * y) * z == x * (y * z)
duty imply.6
  prove x * (y + z) == (x * y) + (x * z)
    resume by induction on z
    <> basis 0
    [] basis 0
    <> step s(zc)
    [] step s(zc)
  [] lemma
  resume by induction on z
  <> basis 0
  [] basis 0
  <> step s(zc1)
  [] step s(zc1)
  [] conjecture
  qed

% 1 * x == x
duty imply.7
  resume by induction on x
  <> basis 0
  [] basis 0
  <> step s(xc)
  [] step s(xc)
  [] conjecture
  qed

% x * 1 == x
duty imply.8
  [] conjecture
  qed

% 0 * x == 0
duty imply.9
  resume by induction on x
  <> basis 0
  [] basis 0
  <> step s(xc)
  [] step s(xc)
  [] conjecture
  qed

% x * 0 == 0
duty imply.10
  [] conjecture
  qed

% x * (y + z) == (x * y) + (x * z)
duty imply.11
  resume by induction on z
  <> basis 0
  [] basis 0
  <> step s(zc)
  [] step s(zc)
  [] conjecture
  qed

% (x + y) * z == (x * z) + (y * z)
duty imply.12
  prove x + (y + z) == y + (x + z)
    resume by induction on z
    <> basis 0
    [] basis 0
    <> step s(zc)
    [] step s(zc)
  [] lemma
  resume by induction on z
  <> basis 0
  [] basis 0
  <> step s(zc1)
  [] step s(zc1)
  [] conjecture
  qed

% x * y == y * x
duty imply.13
  prove (x + z) = (y + z) == x = y
    resume by induction on z
    <> basis 0
    [] basis 0
    <> step s(zc)
    [] step s(zc)
  [] lemma
  prove s(x) * y == (x * y) + y
    resume by induction on y
    <> basis 0
    [] basis 0
    <> step s(yc)
    [] step s(yc)
  [] lemma
  resume by induction on x
  <> basis 0
  [] basis 0
  <> step s(xc)
  [] step s(xc)
  [] conjecture
  qed

% (s(k) * m) = (s(k) * n) == m = n
duty imply.14
  prove (x + z) = (y + z) == x = y
    resume by induction on z
    <> basis 0
    [] basis 0
    <> step s(zc)
    [] step s(zc)
  [] lemma
  resume by induction on m
  <> basis 0
    resume by induction on n
    <> basis 0
    [] basis 0
    <> step s(nc)
    [] step s(nc)
  [] basis 0
  <> step s(mc)
    resume by induction on n
    <> basis 0
    [] basis 0
    <> step s(nc1)
    [] step s(nc1)
  [] step s(mc)
  [] conjecture
  qed

% s(m) + n == s(m + n)
duty imply.15
  resume by induction on n
  <> basis 0
  [] basis 0
  <> step s(nc)
  [] step s(nc)
  [] conjecture
  qed

% s(m) * n == (m * n) + n
duty imply.16
  resume by induction on n
  <> basis 0
  [] basis 0
  <> step s(nc)
  [] step s(nc)
  [] conjecture
  qed

% k * (m * n) == m * (k * n)
duty imply.17
  resume by induction on k
  <> basis 0
  [] basis 0
  <> step s(kc)
    resume by contradiction
    <> contradiction
      instantiate m by mc, n by nc in H1
      normalize H2
    [] contradiction
  [] step s(kc)
  [] conjecture
  qed

% (m + n) = 0 == (m = 0) /\ (n = 0)
duty imply.18
  resume by induction on m
  <> basis 0
  [] basis 0
  <> step s(mc)
  [] step s(mc)
  [] conjecture
  qed

% (m * n) = 0 == (m = 0) \/ (n = 0)
duty imply.19
  resume by induction on m
  <> basis 0
  [] basis 0
  <> step s(mc)
    resume by induction on n
    <> basis 0
    [] basis 0
    <> step s(nc)
    [] step s(nc)
  [] step s(mc)
  [] conjecture
  qed

% (m * n) = 1 == (m = 1) /\ (n = 1)
duty imply.20
  resume by induction on m
  <> basis 0
  [] basis 0
  <> step s(mc)
    resume by induction on n
    <> basis 0
    [] basis 0
    <> step s(nc)
      resume by cases mc = 0
      <> case mc = 0
      [] case mc = 0
      <> case ~(mc = 0)
      [] case ~(mc = 0)
    [] step s(nc)
  [] step s(mc)
  [] conjecture
  qed

% (m * s(k)) = (n * s(k)) == m = n
duty imply.21
  resume by cases m = n
  <> case mc = nc
  [] case mc = nc
  <> case ~(mc = nc)
    resume by contradiction
    <> contradiction
      instantiate k by kc, m by mc, n by nc in L14
      instantiate x by mc, y by kc in L13
      normalize H3
      instantiate x by kc, y by nc in L13
      normalize D3
      normalize D1
    [] contradiction
  [] case ~(mc = nc)
  [] conjecture
  qed

% n + n == s(s(0)) * n
duty imply.22
  [] conjecture
  qed

% x1 * x2 == conv1'(x1, x2)
duty convert.1
  resume by induction on x2
  <> basis 0
  [] basis 0
  <> step s(x2c)
  [] step s(x2c)
  [] conjecture
  qed
