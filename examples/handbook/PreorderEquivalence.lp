set box-checking on

% x \eqv x
duty imply.1
  [] conjecture
  qed

% ((x \eqv z) /\ (y \eqv z)) => (x \eqv y)
duty imply.2
  resume by =>
  <> implication
    instantiate x by xc, y by zc, z by yc in A2
    instantiate x by yc, y by zc, z by xc in A2
  [] implication
  [] conjecture
  qed

% (x \eqv y) => (x <= y)
duty imply.3
  resume by =>
  <> implication
  [] implication
  [] conjecture
  qed

% ((x \eqv y) /\ (y <= z)) => (x <= z)
duty imply.4
  resume by cases y <= x
  <> case yc <= xc
  [] case yc <= xc
  <> case ~(yc <= xc)
  [] case ~(yc <= xc)
  [] conjecture
  qed

% ((x <= y) /\ (y \eqv z)) => (x <= z)
duty imply.5
  resume by cases z <= y
  <> case zc <= yc
  [] case zc <= yc
  <> case ~(zc <= yc)
  [] case ~(zc <= yc)
  [] conjecture
  qed

% x1 \eqv x2 == conv1'(x1, x2)
duty convert.1
  [] conjecture
  qed
