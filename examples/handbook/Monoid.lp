set box-checking on

% (x * unit) * y == x * y
duty imply.1
  [] conjecture
  qed

% unit * unit == unit
duty imply.2
  [] conjecture
  qed

% unit == unit'
duty convert.1
  % unit' * unit is both of them.
  instantiate x by unit' in A3
  [] conjecture
  qed
