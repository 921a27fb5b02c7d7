declare variables x, y, z: N
set box-checking on

% (x + y) + z == x + (y + z)
duty imply.1
  resume by induction on z
  <> basis 0
  [] basis 0
  <> step s(zc)
  [] step s(zc)
  [] conjecture
  qed

% 0 + x == x
duty imply.2
  resume by induction on x
  <> basis 0
  [] basis 0
  <> step s(xc)
  [] step s(xc)
  [] conjecture
  qed

% x + 0 == x
duty imply.3
  [] conjecture
  qed

% x + y == y + x
duty imply.4
  resume by induction on x
  <> basis 0
  [] basis 0
  <> step s(xc)
    resume by induction on y
    <> basis 0
    [] basis 0
    <> step s(yc)
      instantiate y by s(yc) in H1
    [] step s(yc)
  [] step s(xc)
  [] conjecture
  qed

% (z + x) = (z + y) == x = y
duty imply.5
  prove s(x) + y == s(x + y)
    resume by induction on y
    <> basis 0
    [] basis 0
    <> step s(yc)
    [] step s(yc)
  [] lemma
  resume by induction on z
  <> basis 0
  [] basis 0
  <> step s(zc)
  [] step s(zc)
  [] conjecture
  qed

% (x * y) * z == x * (y * z)
duty imply.6
  prove x * (y + z) == (x * y) + (x * z)
    resume by induction on z
    <> basis 0
    [] basis 0
    <> step s(zc)
    [] step s(zc)
  [] lemma
  resume by induction on z
  <> basis 0
  [] basis 0
  <> step s(zc1)
  [] step s(zc1)
  [] conjecture
  qed

% 1 * x == x
duty imply.7
  resume by induction on x
  <> basis 0
  [] basis 0
  <> step s(xc)
  [] step s(xc)
  [] conjecture
  qed

% x * 1 == x
duty imply.8
  [] conjecture
  qed

% 0 * x == 0
duty imply.9
  resume by induction on x
  <> basis 0
  [] basis 0
  <> step s(xc)
  [] step s(xc)
  [] conjecture
  qed

% x * 0 == 0
duty imply.10
  [] conjecture
  qed

% x * (y + z) == (x * y) + (x * z)
duty imply.11
  resume by induction on z
  <> basis 0
  [] basis 0
  <> step s(zc)
  [] step s(zc)
  [] conjecture
  qed

% (x + y) * z == (x * z) + (y * z)
duty imply.12
  prove x + (y + z) == y + (x + z)
    resume by induction on z
    <> basis 0
    [] basis 0
    <> step s(zc)
    [] step s(zc)
  [] lemma
  resume by induction on z
  <> basis 0
  [] basis 0
  <> step s(zc1)
  [] step s(zc1)
  [] conjecture
  qed

% x * y == y * x
duty imply.13
  prove (x + z) = (y + z) == x = y
    resume by induction on z
    <> basis 0
    [] basis 0
    <> step s(zc)
    [] step s(zc)
  [] lemma
  prove s(x) * y == (x * y) + y
    resume by induction on y
    <> basis 0
    [] basis 0
    <> step s(yc)
    [] step s(yc)
  [] lemma
  resume by induction on x
  <> basis 0
  [] basis 0
  <> step s(xc)
  [] step s(xc)
  [] conjecture
  qed

% s(m) * n == (m * n) + n
duty imply.14
  resume by induction on n
  <> basis 0
  [] basis 0
  <> step s(nc)
  [] step s(nc)
  [] conjecture
  qed

% k * (m * n) == m * (k * n)
duty imply.15
  resume by induction on k
  <> basis 0
  [] basis 0
  <> step s(kc)
    resume by contradiction
    <> contradiction
      instantiate m by mc, n by nc in H1
      normalize H2
    [] contradiction
  [] step s(kc)
  [] conjecture
  qed

% n ^ 1 == n
duty imply.16
  [] conjecture
  qed

% 1 ^ n == 1
duty imply.17
  resume by induction on n
  <> basis 0
  [] basis 0
  <> step s(nc)
  [] step s(nc)
  [] conjecture
  qed

% 0 ^ s(n) == 0
duty imply.18
  [] conjecture
  qed

% k ^ (m + n) == (k ^ m) * (k ^ n)
duty imply.19
  resume by induction on n
  <> basis 0
  [] basis 0
  <> step s(nc)
  [] step s(nc)
  [] conjecture
  qed

% (k * m) ^ n == (k ^ n) * (m ^ n)
duty imply.20
  resume by induction on n
  <> basis 0
  [] basis 0
  <> step s(nc)
    resume by contradiction
    <> contradiction
      instantiate k by mc ^ nc, m by kc, n by mc in L15
      normalize H2
    [] contradiction
  [] step s(nc)
  [] conjecture
  qed

% k ^ (m * n) == (k ^ m) ^ n
duty imply.21
  resume by induction on m
  <> basis 0
  [] basis 0
  <> step s(mc)
  [] step s(mc)
  [] conjecture
  qed

% square(m) * square(n) == square(m * n)
duty imply.22
  resume by contradiction
  <> contradiction
    instantiate k by mc, m by nc, n by nc in L15
    normalize H1
  [] contradiction
  [] conjecture
  qed

% n ^ s(s(0)) == square(n)
duty imply.23
  [] conjecture
  qed

% square(m + n) == (square(m) + (m * n)) + ((m * n) + square(n))
duty imply.24
  resume by contradiction
  <> contradiction
    instantiate x by nc, y by mc in L13
    normalize H1
  [] contradiction
  [] conjecture
  qed

% x1 ^ x2 == conv1'(x1, x2)
duty convert.1
  resume by induction on x2
  <> basis 0
  [] basis 0
  <> step s(x2c)
  [] step s(x2c)
  [] conjecture
  qed

% square(x1) == square'(x1)
duty convert.2
  [] conjecture
  qed
