set box-checking on

% (x < y) => (~ (y < x))
duty imply.1
  resume by =>
  <> implication
    instantiate x by yc, y by xc, z by yc in A2
  [] implication
  [] conjecture
  qed

% (x < y) => (x ~= y)
duty imply.2
  resume by cases x = y
  <> case xc = yc
  [] case xc = yc
  <> case ~(xc = yc)
  [] case ~(xc = yc)
  [] conjecture
  qed

% ((x < y) /\ (y < z)) => (~ (z < x))
duty imply.3
  resume by =>
  <> implication
    instantiate x by zc, y by xc, z by yc in A2
    instantiate x by yc, y by zc in L1
    normalize D1
  [] implication
  [] conjecture
  qed
