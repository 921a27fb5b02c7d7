set box-checking on

% (x \eqv y) => (y \eqv x)
duty imply.1
  instantiate z by x in A2
  [] conjecture
  qed

% x \eqv y == y \eqv x
duty imply.2
  resume by cases x \eqv y
  <> case xc \eqv yc
    instantiate x by xc, y by yc in L1
  [] case xc \eqv yc
  <> case ~(xc \eqv yc)
    instantiate x by yc, y by xc in L1
  [] case ~(xc \eqv yc)
  [] conjecture
  qed

% ((x \eqv y) /\ (y \eqv z)) => (x \eqv z)
duty imply.3
  resume by =>
  <> implication
    instantiate x by xc, z by yc, y by zc in A2
    instantiate x by yc, y by zc in L1
    normalize D1
  [] implication
  [] conjecture
  qed

% (x \eqv y) => ((x \eqv z) <=> (y \eqv z))
duty imply.4
  resume by =>
  <> implication
    resume by cases xc \eqv z
    <> case xc \eqv zc
      instantiate x by yc, z by zc, y by xc in A2
      instantiate x by yc, y by xc, z by zc in L3
      instantiate x by xc, y by yc in L1
      normalize D2
    [] case xc \eqv zc
    <> case ~(xc \eqv zc)
      instantiate x by xc, y by yc, z by zc in L3
    [] case ~(xc \eqv zc)
  [] implication
  [] conjecture
  qed
