set box-checking on

% (x <= y) => (gf(x) <= gf(y))
duty imply.1
  resume by =>
  <> implication
    instantiate x by xc, y by yc in A7
    instantiate u by f(xc), v by f(yc) in A8
  [] implication
  [] conjecture
  qed

% ((x <= y) /\ (y <= z)) => (f(x) <= f(z))
duty imply.2
  resume by =>
  <> implication
    instantiate x by xc, y by yc, z by zc in A2
    instantiate x by xc, y by zc in A7
  [] implication
  [] conjecture
  qed

% ((u <= v) /\ (~ (g(u) <= g(f(x))))) => (~ (v <= f(x)))
duty imply.3
  resume by =>
  <> implication
    instantiate x by uc, y by vc, z by f(xc) in A4
    instantiate u by uc, v by f(xc) in A8
    normalize D1
  [] implication
  [] conjecture
  qed

% (~ (gf(x) <= gf(y))) => (~ (x <= y))
duty imply.4
  resume by =>
  <> implication
    instantiate x by xc, y by yc in L1
  [] implication
  [] conjecture
  qed

% gf(x1) == gf'(x1)
duty convert.1
  [] conjecture
  qed
