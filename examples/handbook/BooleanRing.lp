register height __ + __ > 0: -> R
register height __ * __ > 1
set box-checking on

% x + 0 == x
duty imply.1
  instantiate y by 0 in A4
  [] conjecture
  qed

% (- x) + (x + y) == y
duty imply.2
  critical-pairs A1 with A3
  [] conjecture
  qed

% (z + x) = (z + y) == x = y
duty imply.3
  resume by cases x = y
  <> case xc = yc
  [] case xc = yc
  <> case ~(xc = yc)
    resume by contradiction
    <> contradiction
      critical-pairs L2 with H3
      normalize H2
    [] contradiction
  [] case ~(xc = yc)
  [] conjecture
  qed

% x + x == 0
duty imply.4
  % The square of x + x is x + x; what is on both sides is taken away, twice.
  instantiate x by x + x in A11
  normalize D1
  instantiate z by x, x by x + (x + x), y by x in L3
  instantiate z by x, x by x + x, y by 0 in L3
  [] conjecture
  qed

% x + (x + y) == y
duty imply.5
  critical-pairs A1 with L4
  [] conjecture
  qed

% (x + z) = (y + z) == x = y
duty imply.6
  resume by cases x = y
  <> case xc = yc
  [] case xc = yc
  <> case ~(xc = yc)
    resume by contradiction
    <> contradiction
      critical-pairs A1 with H3
      instantiate v1 by zc in D1
      normalize H2
    [] contradiction
  [] case ~(xc = yc)
  [] conjecture
  qed

% - x == x
duty imply.7
  instantiate y by x in L2
  [] conjecture
  qed

% (x + y) = 0 == x = y
duty imply.8
  resume by cases x = y
  <> case xc = yc
  [] case xc = yc
  <> case ~(xc = yc)
    resume by contradiction
    <> contradiction
      instantiate z by xc, x by yc, y by xc in L3
    [] contradiction
  [] case ~(xc = yc)
  [] conjecture
  qed

% x * 0 == 0
duty imply.9
  instantiate y by 0, z by 0 in A8
  [] conjecture
  qed

% 0 * x == 0
duty imply.10
  instantiate x by 0, y by 0, z by x in A9
  [] conjecture
  qed

% (y * x) + (x * y) == 0
duty imply.11
  % The square of x + y is x + y.
  instantiate x by x + y in A11
  normalize D1
  instantiate z by x, x by (y * x) + ((x * y) + y), y by y in L3
  instantiate x by (y * x) + (x * y), y by 0, z by y in L6
  [] conjecture
  qed

% x * y == y * x
duty imply.12
  instantiate x by y * x, y by x * y in L8
  [] conjecture
  qed

% x * (x * y) == x * y
duty imply.13
  critical-pairs A5 with A11
  [] conjecture
  qed

% x * (1 + x) == 0
duty imply.14
  [] conjecture
  qed
