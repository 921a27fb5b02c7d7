set box-checking on

% (((w <= x) /\ (x <= y)) /\ (y <= z)) => (w <= z)
duty imply.1
  resume by =>
  <> implication
    instantiate x by wc, y by xc, z by yc in A2
    instantiate x by wc, y by yc, z by zc in A2
  [] implication
  [] conjecture
  qed

% ((x <= y) /\ (~ (x <= z))) => (~ (y <= z))
duty imply.2
  resume by =>
  <> implication
    instantiate x by xc, y by yc, z by zc in A2
  [] implication
  [] conjecture
  qed

% ((y <= z) /\ (~ (x <= z))) => (~ (x <= y))
duty imply.3
  resume by =>
  <> implication
    instantiate x by xc, y by yc, z by zc in A2
  [] implication
  [] conjecture
  qed
