declare variables x, y, z: N
set box-checking on

% (x + y) + z == x + (y + z)
duty imply.1
  resume by induction on z
  <> basis 0
  [] basis 0
  <> step s(zc)
  [] step s(zc)
  [] conjecture
  qed

% 0 + x == x
duty imply.2
  resume by induction on x
  <> basis 0
  [] basis 0
  <> step s(xc)
  [] step s(xc)
  [] conjecture
  qed

% x + 0 == x
duty imply.3
  [] conjecture
  qed

% x + y == y + x
duty imply.4
  resume by induction on x
  <> basis 0
  [] basis 0
  <> step s(xc)
    resume by induction on y
    <> basis 0
    [] basis 0
    <> step s(yc)
      instantiate y by s(yc) in H1
    [] step s(yc)
  [] step s(xc)
  [] conjecture
  qed

% (z + x) = (z + y) == x = y
duty imply.5
  prove s(x) + y == s(x + y)
    resume by induction on y
    <> basis 0
    [] basis 0
    <> step s(yc)
    [] step s(yc)
  [] lemma
  resume by induction on z
  <> basis 0
  [] basis 0
  <> step s(zc)
  [] step s(zc)
  [] conjecture
  qed

% (x * y) * z == x * (y * z)
duty imply.6
  prove x * (y + z) == (x * y) + (x * z)
    resume by induction on z
    <> basis 0
    [] basis 0
    <> step s(zc)
    [] step s(zc)
  [] lemma
  resume by induction on z
  <> basis 0
  [] basis 0
  <> step s(zc1)
  [] step s(zc1)
  [] conjecture
  qed

% 1 * x == x
duty imply.7
  resume by induction on x
  <> basis 0
  [] basis 0
  <> step s(xc)
  [] step s(xc)
  [] conjecture
  qed

% x * 1 == x
duty imply.8
  [] conjecture
  qed

% 0 * x == 0
duty imply.9
  resume by induction on x
  <> basis 0
  [] basis 0
  <> step s(xc)
  [] step s(xc)
  [] conjecture
  qed

% x * 0 == 0
duty imply.10
  [] conjecture
  qed

% x * (y + z) == (x * y) + (x * z)
duty imply.11
  resume by induction on z
  <> basis 0
  [] basis 0
  <> step s(zc)
  [] step s(zc)
  [] conjecture
  qed

% (x + y) * z == (x * z) + (y * z)
duty imply.12
  prove x + (y + z) == y + (x + z)
    resume by induction on z
    <> basis 0
    [] basis 0
    <> step s(zc)
    [] step s(zc)
  [] lemma
  resume by induction on z
  <> basis 0
  [] basis 0
  <> step s(zc1)
  [] step s(zc1)
  [] conjecture
  qed

% x * y == y * x
duty imply.13
  prove (x + z) = (y + z) == x = y
    resume by induction on z
    <> basis 0
    [] basis 0
    <> step s(zc)
    [] step s(zc)
  [] lemma
  prove s(x) * y == (x * y) + y
    resume by induction on y
    <> basis 0
    [] basis 0
    <> step s(yc)
    [] step s(yc)
  [] lemma
  resume by induction on x
  <> basis 0
  [] basis 0
  <> step s(xc)
  [] step s(xc)
  [] conjecture
  qed

% s(m) + n == s(m + n)
duty imply.14
  resume by induction on n
  <> basis 0
  [] basis 0
  <> step s(nc)
  [] step s(nc)
  [] conjecture
  qed

% s(m) * n == (m * n) + n
duty imply.15
  resume by induction on n
  <> basis 0
  [] basis 0
  <> step s(nc)
  [] step s(nc)
  [] conjecture
  qed

% k + (m + n) == m + (k + n)
duty imply.16
  resume by induction on k
  <> basis 0
  [] basis 0
  <> step s(kc)
  [] step s(kc)
  [] conjecture
  qed

% (m + n) = 0 == (m = 0) /\ (n = 0)
duty imply.17
  resume by induction on m
  <> basis 0
  [] basis 0
  <> step s(mc)
  [] step s(mc)
  [] conjecture
  qed

% odd(n) == s(n + n)
duty imply.18
  resume by induction on n
  <> basis 0
  [] basis 0
  <> step s(nc)
  [] step s(nc)
  [] conjecture
  qed

% sum(n) + sum(n) == n * s(n)
duty imply.19
  resume by induction on n
  <> basis 0
  [] basis 0
  <> step s(nc)
    critical-pairs L1 with H1
    instantiate k by nc, m by sum(nc), n by nc in L16
    instantiate v1 by nc + nc in D1
  [] step s(nc)
  [] conjecture
  qed

% sumOfOdd(n) == n * n
duty imply.20
  resume by induction on n
  <> basis 0
  [] basis 0
  <> step s(nc)
    critical-pairs A14 with H1
  [] step s(nc)
  [] conjecture
  qed

% factorial(n) ~= 0
duty imply.21
  resume by induction on n
  <> basis 0
  [] basis 0
  <> step s(nc)
  [] step s(nc)
  [] conjecture
  qed

% odd(x1) == odd'(x1)
duty convert.1
  resume by induction on x1
  <> basis 0
  [] basis 0
  <> step s(x1c)
  [] step s(x1c)
  [] conjecture
  qed

% sum(x1) == sum'(x1)
duty convert.2
  resume by induction on x1
  <> basis 0
  [] basis 0
  <> step s(x1c)
  [] step s(x1c)
  [] conjecture
  qed

% sumOfOdd(x1) == sumOfOdd'(x1)
duty convert.3
  resume by induction on x1
  <> basis 0
  [] basis 0
  <> step s(x1c)
  [] step s(x1c)
  [] conjecture
  qed

% factorial(x1) == factorial'(x1)
duty convert.4
  resume by induction on x1
  <> basis 0
  [] basis 0
  <> step s(x1c)
  [] step s(x1c)
  [] conjecture
  qed
