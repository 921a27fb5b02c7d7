register height __ + __ > 0: -> R
register height __ * __ > 1
set box-checking on

% x + 0 == x
duty imply.1
  instantiate y by 0 in A4
  [] conjecture
  qed

% (- x) + (x + y) == y
duty imply.2
  critical-pairs A1 with A3
  [] conjecture
  qed

% x + (- x) == 0
duty imply.3
  instantiate y by - x in A4
  [] conjecture
  qed

% - 0 == 0
duty imply.4
  instantiate x by 0 in A3
  [] conjecture
  qed

% - (- x) == x
duty imply.5
  critical-pairs L2 with A3
  [] conjecture
  qed

% (z + x) = (z + y) == x = y
duty imply.6
  resume by cases x = y
  <> case xc = yc
  [] case xc = yc
  <> case ~(xc = yc)
    resume by contradiction
    <> contradiction
      critical-pairs L2 with H3
      normalize H2
    [] contradiction
  [] case ~(xc = yc)
  [] conjecture
  qed

% x * 0 == 0
duty imply.7
  % (x * 0) + (x * 0) is x * 0, which can be taken away.
  instantiate y by 0, z by 0 in A8
  instantiate z by x * 0, x by x * 0, y by 0 in L6
  [] conjecture
  qed

% 0 * x == 0
duty imply.8
  instantiate x by 0, y by 0, z by x in A9
  instantiate z by 0 * x, x by 0 * x, y by 0 in L6
  [] conjecture
  qed

% x * (- y) == - (x * y)
duty imply.9
  % (x * y) + (x * (- y)) is 0.
  instantiate z by (- y) in A8
  critical-pairs L2 with D1
  [] conjecture
  qed

% (- x) * y == - (x * y)
duty imply.10
  instantiate y by (- x), z by y in A9
  critical-pairs L2 with D1
  [] conjecture
  qed

% (- x) * (- y) == x * y
duty imply.11
  [] conjecture
  qed

% (- 1) * x == - x
duty imply.12
  [] conjecture
  qed

% x - x == 0
duty imply.13
  [] conjecture
  qed

% x - 0 == x
duty imply.14
  [] conjecture
  qed

% x * (y - z) == (x * y) - (x * z)
duty imply.15
  [] conjecture
  qed

% (x - y) * z == (x * z) - (y * z)
duty imply.16
  [] conjecture
  qed

% x1 - x2 == conv1'(x1, x2)
duty convert.1
  [] conjecture
  qed
