register height __ * __ > unit
set box-checking on

% x * unit == x
duty imply.1
  instantiate y by unit in A4
  [] conjecture
  qed

% x * inv(x) == unit
duty imply.2
  instantiate y by inv(x) in A4
  [] conjecture
  qed

% inv(x) * (x * y) == y
duty imply.3
  critical-pairs A1 with A3
  [] conjecture
  qed

% x * (y * z) == y * (x * z)
duty imply.4
  resume by contradiction
  <> contradiction
    instantiate x by yc, y by zc in A4
    normalize H1
    instantiate x by yc, y by xc * zc in A4
  [] contradiction
  [] conjecture
  qed

% inv(inv(x)) == x
duty imply.5
  critical-pairs L3 with A3
  [] conjecture
  qed

% x * (inv(x) * y) == y
duty imply.6
  instantiate y by inv(x), z by y in L4
  [] conjecture
  qed

% x * (y * inv(x)) == y
duty imply.7
  instantiate z by inv(x) in L4
  [] conjecture
  qed

% inv(x * y) == inv(x) * inv(y)
duty imply.8
  instantiate x by x * y, y by inv(x) * inv(y) in L3
  [] conjecture
  qed
