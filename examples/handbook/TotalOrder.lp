set box-checking on

% (~ (x <= y)) => (y <= x)
duty imply.1
  resume by =>
  <> implication
    instantiate x by yc, y by xc in A4
  [] implication
  [] conjecture
  qed

% (~ (x <= y)) => (x ~= y)
duty imply.2
  resume by cases x = y
  <> case xc = yc
  [] case xc = yc
  <> case ~(xc = yc)
  [] case ~(xc = yc)
  [] conjecture
  qed

% ((~ (x <= y)) /\ (~ (y <= z))) => (~ (x <= z))
duty imply.3
  resume by =>
  <> implication
    instantiate x by xc, y by zc, z by yc in A2
    instantiate x by yc, y by zc in A4
    normalize D1
  [] implication
  [] conjecture
  qed

% ((x <= z) /\ (~ (y <= z))) => (~ (y <= x))
duty imply.4
  resume by =>
  <> implication
    instantiate x by yc, y by xc, z by zc in A2
  [] implication
  [] conjecture
  qed

% ((z <= x) /\ (~ (z <= y))) => (y <= x)
duty imply.5
  resume by =>
  <> implication
    instantiate x by zc, y by yc, z by xc in L3
  [] implication
  [] conjecture
  qed
