register height __ \meet __ > __ \join __
set box-checking on

% x \meet x == x
duty imply.1
  critical-pairs A5 with A6
  [] conjecture
  qed

% x \join x == x
duty imply.2
  critical-pairs A6 with A5
  [] conjecture
  qed

% x \join (y \meet x) == x
duty imply.3
  resume by contradiction
  <> contradiction
    instantiate x by yc, y by xc in A3
    critical-pairs A6 with D1
    normalize H1
  [] contradiction
  [] conjecture
  qed

% (x \meet y) \join y == y
duty imply.4
  instantiate x by x \meet y in A4
  [] conjecture
  qed

% (x \meet y) \join x == x
duty imply.5
  instantiate y by x \meet y in A4
  [] conjecture
  qed

% x \join ((x \meet y) \join z) == x \join z
duty imply.6
  critical-pairs A2 with A6
  [] conjecture
  qed

% x \join ((y \meet x) \join z) == x \join z
duty imply.7
  critical-pairs A2 with L3
  [] conjecture
  qed

% (y \join z) \meet x == (y \meet x) \join (z \meet x)
duty imply.8
  resume by contradiction
  <> contradiction
    instantiate x by yc, y by xc in A3
    normalize H1
    instantiate x by zc, y by xc in A3
    normalize D2
    instantiate x by yc \join zc, y by xc in A3
  [] contradiction
  [] conjecture
  qed

% x \join (y \meet z) == (x \join y) \meet (x \join z)
duty imply.9
  [] conjecture
  qed

% (((x \meet y) = (x \meet z)) /\ ((x \join y) = (x \join z))) => (y = z)
duty imply.10
  resume by =>
  <> implication
    critical-pairs A8 with H1.2
    instantiate x by xc, y by yc in A3
    instantiate x by xc, y by zc in A3
    instantiate x by yc, y by zc in A3
    normalize H1
    instantiate v1 by zc in D1
    instantiate v1 by yc in D1
    instantiate x by yc, y by xc in L5
  [] implication
  [] conjecture
  qed
