set box-checking on

% (x * y) * z == x * (y * z)
duty imply.1
  [] conjecture
  qed

% unit * x == x
duty imply.2
  resume by induction on x
  <> basis [ac, ac1]
  [] basis [ac, ac1]
  [] conjecture
  qed

% inv(x) * x == unit
duty imply.3
  [] conjecture
  qed

% [a, b] * [c, d] == [a * c, b * d]
duty imply.4
  [] conjecture
  qed

% [a, unit] * [unit, b] == [a * unit, b]
duty imply.5
  [] conjecture
  qed

% inv([a, b]) == [inv(a), inv(b)]
duty imply.6
  [] conjecture
  qed

% x1 * x2 == conv1'(x1, x2)
duty convert.1
  [] conjecture
  qed

% unit == unit'
duty convert.2
  [] conjecture
  qed

% inv(x1) == inv'(x1)
duty convert.3
  [] conjecture
  qed
