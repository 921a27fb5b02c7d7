set box-checking on

% x \meet x == x
duty imply.1
  critical-pairs A5 with A6
  [] conjecture
  qed

% x \join x == x
duty imply.2
  critical-pairs A6 with A5
  [] conjecture
  qed

% x <= y == (x \join y) = y
duty imply.3
  resume by cases (x \meet y) = x
  <> case (xc \meet yc) = xc
    instantiate x by xc, y by yc in A3
    instantiate x by xc, y by yc in A4
    critical-pairs A6 with D1
  [] case (xc \meet yc) = xc
  <> case ~((xc \meet yc) = xc)
    resume by cases (xc \join yc) = yc
    <> case (xc \join yc) = yc
      instantiate x by xc, y by yc in A3
      normalize H2
      critical-pairs A5 with H3
      normalize D5
    [] case (xc \join yc) = yc
    <> case ~((xc \join yc) = yc)
    [] case ~((xc \join yc) = yc)
  [] case ~((xc \meet yc) = xc)
  [] conjecture
  qed

% (x \meet y) <= x
duty imply.4
  resume by contradiction
  <> contradiction
    instantiate x by xc, y by yc \meet xc in A3
    normalize H1
  [] contradiction
  [] conjecture
  qed

% (x \meet y) <= y
duty imply.5
  [] conjecture
  qed

% x <= (x \join y)
duty imply.6
  [] conjecture
  qed

% y <= (x \join y)
duty imply.7
  resume by contradiction
  <> contradiction
    instantiate x by xc, y by yc in A4
    critical-pairs A5 with D1
    normalize H1
  [] contradiction
  [] conjecture
  qed

% ((z <= x) /\ (z <= y)) => (z <= (x \meet y))
duty imply.8
  resume by =>
  <> implication
    critical-pairs A1 with H1
  [] implication
  [] conjecture
  qed

% ((x <= z) /\ (y <= z)) => ((x \join y) <= z)
duty imply.9
  resume by =>
  <> implication
    instantiate x by yc, y by zc in L3
    instantiate x by xc, y by zc in L3
    instantiate x by xc \join yc, y by zc in L3
  [] implication
  [] conjecture
  qed

% (x \meet y) = (x \join y) == x = y
duty imply.10
  resume by cases x = y
  <> case xc = yc
  [] case xc = yc
  <> case ~(xc = yc)
    resume by contradiction
    <> contradiction
      % x \meet (x \meet y) is x \meet y, and as meet and join are the same, it is x; and y likewise.
      critical-pairs A1 with L1
      critical-pairs A5 with H3
      critical-pairs L7 with H3
      instantiate x by xc, y by yc in A3
    [] contradiction
  [] case ~(xc = yc)
  [] conjecture
  qed

% x1 <= x2 == conv1'(x1, x2)
duty convert.1
  [] conjecture
  qed
