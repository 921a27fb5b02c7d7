set box-checking on

% x <= x
duty imply.1
  [] conjecture
  qed

% ((x <= y) /\ (y <= z)) => (x <= z)
duty imply.2
  resume by =>
  <> implication
    critical-pairs A1 with H1
    instantiate v1 by zc in D1
  [] implication
  [] conjecture
  qed

% ((x <= y) /\ (y <= x)) => (x = y)
duty imply.3
  resume by =>
  <> implication
    instantiate x by xc, y by yc in A2
  [] implication
  [] conjecture
  qed

% x \meet (x \meet y) == x \meet y
duty imply.4
  resume by contradiction
  <> contradiction
    instantiate x by xc, y by yc in A2
    normalize H1
    instantiate x by xc, y by yc \meet xc in A2
  [] contradiction
  [] conjecture
  qed

% x \meet (y \meet z) == y \meet (x \meet z)
duty imply.5
  resume by contradiction
  <> contradiction
    instantiate x by xc, y by yc \meet zc in A2
    normalize H1
    instantiate x by zc, y by xc in A2
    normalize D2
  [] contradiction
  [] conjecture
  qed

% (x \meet y) <= x
duty imply.6
  instantiate z by x in L5
  [] conjecture
  qed

% (x \meet y) <= y
duty imply.7
  [] conjecture
  qed

% ((z <= x) /\ (z <= y)) => (z <= (x \meet y))
duty imply.8
  resume by =>
  <> implication
    critical-pairs A1 with H1
  [] implication
  [] conjecture
  qed

% (x <= y) => ((x \meet z) <= (y \meet z))
duty imply.9
  resume by =>
  <> implication
    resume by contradiction
    <> contradiction
      % x \meet (y \meet z) is x \meet z.
      critical-pairs A1 with H1
      instantiate x by zc, y by yc in A2
      instantiate v1 by zc in D1
      normalize H2
    [] contradiction
  [] implication
  [] conjecture
  qed

% x1 <= x2 == conv1'(x1, x2)
duty convert.1
  [] conjecture
  qed
