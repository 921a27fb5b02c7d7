set box-checking on

% closure(x) <= x == closure(x) = x
duty imply.1
  resume by cases closure(x) = x
  <> case closure(xc) = xc
  [] case closure(xc) = xc
  <> case ~(closure(xc) = xc)
    instantiate x by closure(xc), y by xc in A3
  [] case ~(closure(xc) = xc)
  [] conjecture
  qed

% x <= closure(y) == closure(x) <= closure(y)
duty imply.2
  resume by cases x <= closure(y)
  <> case xc <= closure(yc)
    instantiate x by xc, y by closure(yc) in A5
  [] case xc <= closure(yc)
  <> case ~(xc <= closure(yc))
    instantiate x by xc, y by closure(xc), z by closure(yc) in A2
  [] case ~(xc <= closure(yc))
  [] conjecture
  qed

% ((x <= y) /\ (y <= closure(x))) => (closure(x) = closure(y))
duty imply.3
  resume by =>
  <> implication
    instantiate x by xc, y by yc in A5
    instantiate x by closure(xc), y by closure(yc) in A3
  [] implication
  [] conjecture
  qed

% ((x <= y) /\ (closure(y) = y)) => (closure(x) <= y)
duty imply.4
  resume by =>
  <> implication
    instantiate x by xc, y by yc in A5
  [] implication
  [] conjecture
  qed
