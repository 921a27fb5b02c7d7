register height __ \join __ > top
register height __ \meet __ > __ \join __
register height __ <= __ > __ \meet __
set box-checking on

% x \meet x == x
duty imply.1
  critical-pairs A5 with A6
  [] conjecture
  qed

% x \join x == x
duty imply.2
  critical-pairs A6 with A5
  [] conjecture
  qed

% x \join (y \meet x) == x
duty imply.3
  resume by contradiction
  <> contradiction
    instantiate x by yc, y by xc in A3
    critical-pairs A6 with D1
    normalize H1
  [] contradiction
  [] conjecture
  qed

% (x \meet y) \join y == y
duty imply.4
  instantiate x by x \meet y in A4
  [] conjecture
  qed

% (x \meet y) \join x == x
duty imply.5
  instantiate y by x \meet y in A4
  [] conjecture
  qed

% x \join ((x \meet y) \join z) == x \join z
duty imply.6
  critical-pairs A2 with A6
  [] conjecture
  qed

% x \join ((y \meet x) \join z) == x \join z
duty imply.7
  critical-pairs A2 with L3
  [] conjecture
  qed

% (y \join z) \meet x == (y \meet x) \join (z \meet x)
duty imply.8
  resume by contradiction
  <> contradiction
    instantiate x by yc, y by xc in A3
    normalize H1
    instantiate x by zc, y by xc in A3
    normalize D2
    instantiate x by yc \join zc, y by xc in A3
  [] contradiction
  [] conjecture
  qed

% x \join (y \meet z) == (x \join y) \meet (x \join z)
duty imply.9
  [] conjecture
  qed

% (((x \meet y) = (x \meet z)) /\ ((x \join y) = (x \join z))) => (y = z)
duty imply.10
  resume by =>
  <> implication
    critical-pairs A8 with H1.2
    instantiate x by xc, y by yc in A3
    instantiate x by xc, y by zc in A3
    instantiate x by yc, y by zc in A3
    normalize H1
    instantiate v1 by zc in D1
    instantiate v1 by yc in D1
    instantiate x by yc, y by xc in L5
  [] implication
  [] conjecture
  qed

% bottom \join x == x
duty imply.11
  instantiate x by x, y by bottom in A4
  [] conjecture
  qed

% bottom \meet x == bottom
duty imply.12
  critical-pairs A5 with L11
  [] conjecture
  qed

% x \meet bottom == bottom
duty imply.13
  instantiate x by x, y by bottom in A3
  [] conjecture
  qed

% top \meet x == x
duty imply.14
  instantiate x by x, y by top in A3
  [] conjecture
  qed

% top \join x == top
duty imply.15
  critical-pairs A6 with L14
  [] conjecture
  qed

% x \join top == top
duty imply.16
  instantiate x by x, y by top in A4
  [] conjecture
  qed

% (- x) \meet x == bottom
duty imply.17
  instantiate x by x, y by (- x) in A3
  [] conjecture
  qed

% (- x) \join x == top
duty imply.18
  instantiate x by x, y by (- x) in A4
  [] conjecture
  qed

% (((x \meet y) = bottom) /\ ((x \join y) = top)) => (y = (- x))
duty imply.19
  resume by =>
  <> implication
    instantiate x by xc, y by yc, z by (- xc) in L10
  [] implication
  [] conjecture
  qed

% - bottom == top
duty imply.20
  instantiate x by bottom in A12
  [] conjecture
  qed

% - top == bottom
duty imply.21
  instantiate x by top in A11
  [] conjecture
  qed

% - (- x) == x
duty imply.22
  instantiate x by (- x), y by x in L19
  [] conjecture
  qed

% ((- x) = (- y)) => (x = y)
duty imply.23
  resume by =>
  <> implication
    critical-pairs L22 with H1
  [] implication
  [] conjecture
  qed

% (x = (- x)) => (bottom = top)
duty imply.24
  resume by =>
  <> implication
    instantiate x by xc in A11
    instantiate x by xc in A12
  [] implication
  [] conjecture
  qed

% (y \meet x) \join (- x) == y \join (- x)
duty imply.25
  instantiate x by y, y by x, z by (- x) in A8
  critical-pairs A2 with D1
  instantiate v1 by y, v2 by (- x), v3 by x in D2
  [] conjecture
  qed

% x \join (y \join (- x)) == top
duty imply.26
  resume by contradiction
  <> contradiction
    critical-pairs A2 with A12
    instantiate x by yc, y by (- xc) in A4
    instantiate v2 by xc, v1 by yc in D2
    normalize H1
  [] contradiction
  [] conjecture
  qed

% x \meet (y \meet (- x)) == bottom
duty imply.27
  resume by contradiction
  <> contradiction
    critical-pairs A1 with A11
    instantiate x by yc, y by (- xc) in A3
    instantiate v2 by xc, v1 by yc in D2
    normalize H1
  [] contradiction
  [] conjecture
  qed

% - (x \meet y) == (- y) \join (- x)
duty imply.28
  % (- y) \join (- x) is a complement of x \meet y.
  critical-pairs A2 with L25
  instantiate x by x \meet y, y by (- y) \join (- x) in L19
  [] conjecture
  qed

% - (x \join y) == (- y) \meet (- x)
duty imply.29
  % What the law before says of (- y) \meet (- x), of which the complement is taken.
  instantiate x by (- y), y by (- x) in L28
  critical-pairs L22 with D1
  [] conjecture
  qed

% - x1 == conv1'(x1)
duty convert.1
  instantiate x by x1, y by conv1'(x1) in L19
  [] conjecture
  qed
