declare variables x, y, z: N
set box-checking on

% (x + y) + z == x + (y + z)
duty imply.1
  resume by induction on z
  <> basis 0
  [] basis 0
  <> step s(zc)
  [] step s(zc)
  [] conjecture
  qed

% 0 + x == x
duty imply.2
  resume by induction on x
  <> basis 0
  [] basis 0
  <> step s(xc)
  [] step s(xc)
  [] conjecture
  qed

% x + 0 == x
duty imply.3
  [] conjecture
  qed

% x + y == y + x
duty imply.4
  resume by induction on x
  <> basis 0
  [] basis 0
  <> step s(xc)
    resume by induction on y
    <> basis 0
    [] basis 0
    <> step s(yc)
      instantiate y by s(yc) in H1
    [] step s(yc)
  [] step s(xc)
  [] conjecture
  qed

% (z + x) = (z + y) == x = y
duty imply.5
  prove s(x) + y == s(x + y)
    resume by induction on y
    <> basis 0
    [] basis 0
    <> step s(yc)
    [] step s(yc)
  [] lemma
  resume by induction on z
  <> basis 0
  [] basis 0
  <> step s(zc)
  [] step s(zc)
  [] conjecture
  qed

% (x * y) * z == x * (y * z)
duty imply.6
  prove x * (y + z) == (x * y) + (x * z)
    resume by induction on z
    <> basis 0
    [] basis 0
    <> step s(zc)
    [] step s(zc)
  [] lemma
  resume by induction on z
  <> basis 0
  [] basis 0
  <> step s(zc1)
  [] step s(zc1)
  [] conjecture
  qed

% 1 * x == x
duty imply.7
  resume by induction on x
  <> basis 0
  [] basis 0
  <> step s(xc)
  [] step s(xc)
  [] conjecture
  qed

% x * 1 == x
duty imply.8
  [] conjecture
  qed

% 0 * x == 0
duty imply.9
  resume by induction on x
  <> basis 0
  [] basis 0
  <> step s(xc)
  [] step s(xc)
  [] conjecture
  qed

% x * 0 == 0
duty imply.10
  [] conjecture
  qed

% x * (y + z) == (x * y) + (x * z)
duty imply.11
  resume by induction on z
  <> basis 0
  [] basis 0
  <> step s(zc)
  [] step s(zc)
  [] conjecture
  qed

% (x + y) * z == (x * z) + (y * z)
duty imply.12
  prove x + (y + z) == y + (x + z)
    resume by induction on z
    <> basis 0
    [] basis 0
    <> step s(zc)
    [] step s(zc)
  [] lemma
  resume by induction on z
  <> basis 0
  [] basis 0
  <> step s(zc1)
  [] step s(zc1)
  [] conjecture
  qed

% x * y == y * x
duty imply.13
  prove (x + z) = (y + z) == x = y
    resume by induction on z
    <> basis 0
    [] basis 0
    <> step s(zc)
    [] step s(zc)
  [] lemma
  prove s(x) * y == (x * y) + y
    resume by induction on y
    <> basis 0
    [] basis 0
    <> step s(yc)
    [] step s(yc)
  [] lemma
  resume by induction on x
  <> basis 0
  [] basis 0
  <> step s(xc)
  [] step s(xc)
  [] conjecture
  qed

% s(m) + n == s(m + n)
duty imply.14
  resume by induction on n
  <> basis 0
  [] basis 0
  <> step s(nc)
  [] step s(nc)
  [] conjecture
  qed

% s(m) * n == (m * n) + n
duty imply.15
  resume by induction on n
  <> basis 0
  [] basis 0
  <> step s(nc)
  [] step s(nc)
  [] conjecture
  qed

% m + (n + k) == n + (m + k)
duty imply.16
  resume by induction on m
  <> basis 0
  [] basis 0
  <> step s(mc)
  [] step s(mc)
  [] conjecture
  qed

% from(n, fib(m), fib(s(m))) == fib(m + n)
duty imply.17
  resume by induction on n
  <> basis 0
  [] basis 0
  <> step s(nc)
    instantiate m by s(m) in H1
  [] step s(nc)
  [] conjecture
  qed

% fib(n) == from(n, 0, s(0))
duty imply.18
  instantiate m by 0 in L17
  [] conjecture
  qed

% s(sumOfFib(n)) == fib(s(n))
duty imply.19
  resume by induction on n
  <> basis 0
  [] basis 0
  <> step s(nc)
    critical-pairs L14 with H1
  [] step s(nc)
  [] conjecture
  qed

% fib(s(m + n)) == (fib(s(m)) * fib(s(n))) + (fib(m) * fib(n))
duty imply.20
  resume by induction on n
  <> basis 0
  [] basis 0
  <> step s(nc)
    instantiate m by s(m) in H1
    normalize D1
    instantiate z by fib(s(m)) * fib(s(nc)), x by (fib(m) * fib(nc)) + fib(m + nc), y by (fib(m) * fib(s(nc))) + (fib(s(m)) * fib(nc)) in L5
  [] step s(nc)
  [] conjecture
  qed

% from(x1, x2, x3) == from'(x1, x2, x3)
duty convert.1
  resume by induction on x1
  <> basis 0
  [] basis 0
  <> step s(x1c)
  [] step s(x1c)
  [] conjecture
  qed

% sumOfFib(x1) == sumOfFib'(x1)
duty convert.2
  resume by induction on x1
  <> basis 0
  [] basis 0
  <> step s(x1c)
  [] step s(x1c)
  [] conjecture
  qed
