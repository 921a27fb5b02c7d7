set box-checking on

% (x <= y) /\ (y <= x) == x = y
duty imply.1
  resume by cases x = y
  <> case xc = yc
  [] case xc = yc
  <> case ~(xc = yc)
    instantiate x by xc, y by yc in A3
  [] case ~(xc = yc)
  [] conjecture
  qed

% ((x <= y) /\ (x ~= y)) => (~ (y <= x))
duty imply.2
  resume by =>
  <> implication
    instantiate x by xc, y by yc in A3
  [] implication
  [] conjecture
  qed

% (((x <= y) /\ (y <= z)) /\ (z <= x)) => (x = z)
duty imply.3
  resume by =>
  <> implication
    instantiate x by xc, y by zc in A3
    instantiate x by xc, y by yc, z by zc in A2
    normalize D1
  [] implication
  [] conjecture
  qed
