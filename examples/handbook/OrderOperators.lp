set box-checking on

% ~ (x < x)
duty imply.1
  [] conjecture
  qed

% ((x < y) /\ (y < z)) => (x < z)
duty imply.2
  resume by =>
  <> implication
    instantiate x by zc, y by xc, z by yc in A2
    instantiate x by yc, y by xc in A4
    normalize D1
  [] implication
  [] conjecture
  qed

% ~ (x > x)
duty imply.3
  [] conjecture
  qed

% ((x > y) /\ (y > z)) => (x > z)
duty imply.4
  resume by =>
  <> implication
    instantiate y by yc, x by zc, z by xc in L2
  [] implication
  [] conjecture
  qed

% x >= x
duty imply.5
  [] conjecture
  qed

% ((x >= y) /\ (y >= z)) => (x >= z)
duty imply.6
  resume by =>
  <> implication
    instantiate x by zc, y by yc, z by xc in A2
  [] implication
  [] conjecture
  qed

% ((x >= y) /\ (y >= x)) => (x = y)
duty imply.7
  resume by =>
  <> implication
    instantiate x by xc, y by yc in A3
  [] implication
  [] conjecture
  qed

% (x >= y) \/ (y >= x)
duty imply.8
  [] conjecture
  qed

% x <= y == (x < y) \/ (x = y)
duty imply.9
  resume by cases x <= y
  <> case xc <= yc
    resume by cases yc <= xc
    <> case yc <= xc
      instantiate x by xc, y by yc in A3
    [] case yc <= xc
    <> case ~(yc <= xc)
    [] case ~(yc <= xc)
  [] case xc <= yc
  <> case ~(xc <= yc)
    resume by cases xc = yc
    <> case xc = yc
      normalize H4
    [] case xc = yc
    <> case ~(xc = yc)
      instantiate x by xc, y by yc in A4
    [] case ~(xc = yc)
  [] case ~(xc <= yc)
  [] conjecture
  qed

% x < y == (x <= y) /\ (x ~= y)
duty imply.10
  resume by cases y <= x
  <> case yc <= xc
    instantiate x by xc, y by yc in L9
  [] case yc <= xc
  <> case ~(yc <= xc)
    instantiate x by xc, y by yc in A4
    resume by cases xc = yc
    <> case xc = yc
      normalize H2
    [] case xc = yc
    <> case ~(xc = yc)
    [] case ~(xc = yc)
  [] case ~(yc <= xc)
  [] conjecture
  qed

% ((x < y) \/ (x = y)) \/ (y < x)
duty imply.11
  resume by contradiction
  <> contradiction
    instantiate x by xc, y by yc in A3
  [] contradiction
  [] conjecture
  qed

% ((x < y) /\ (y <= z)) => (x < z)
duty imply.12
  resume by =>
  <> implication
    instantiate x by yc, y by zc, z by xc in A2
  [] implication
  [] conjecture
  qed

% ((x <= y) /\ (y < z)) => (x < z)
duty imply.13
  resume by =>
  <> implication
    instantiate x by zc, y by xc, z by yc in A2
  [] implication
  [] conjecture
  qed

% ~ (x < y) == x >= y
duty imply.14
  [] conjecture
  qed

% x1 < x2 == conv1'(x1, x2)
duty convert.1
  [] conjecture
  qed

% x1 >= x2 == conv2'(x1, x2)
duty convert.2
  [] conjecture
  qed

% x1 > x2 == conv3'(x1, x2)
duty convert.3
  [] conjecture
  qed
