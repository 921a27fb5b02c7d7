register height __ * __ > unit
set box-checking on

% x * y == y * x
duty imply.1
  % (x * y) * (x * y) is the unit; x * (x * y) is y, and so x * unit is x.
  critical-pairs A1 with A4
  critical-pairs D2 with A4
  % y * (x * y) is x, and y * x is x * y.
  critical-pairs D2 with D1
  critical-pairs D2 with D5
  [] conjecture
  qed

% inv(x) == x
duty imply.2
  resume by contradiction
  <> contradiction
    instantiate x by inv(xc) in A4
    critical-pairs A1 with D1
    instantiate v1 by xc in D2
    instantiate v1 by inv(xc) in D2
    normalize H1
  [] contradiction
  [] conjecture
  qed

% x * (x * y) == y
duty imply.3
  critical-pairs A1 with A4
  [] conjecture
  qed

% x * (y * x) == y
duty imply.4
  critical-pairs A1 with A4
  critical-pairs L3 with A4
  critical-pairs L3 with D1
  [] conjecture
  qed
