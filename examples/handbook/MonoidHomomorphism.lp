register height __ * __: A, A -> A > unit: -> A
register height __ * __: B, B -> B > unit: -> B
set box-checking on

% gf(x * y) == gf(x) * gf(y)
duty imply.1
  [] conjecture
  qed

% gf(unit) == unit
duty imply.2
  [] conjecture
  qed

% f(x * (y * z)) == (f(x) * f(y)) * f(z)
duty imply.3
  [] conjecture
  qed

% ((x * y) = unit) => ((f(x) * f(y)) = unit)
duty imply.4
  resume by =>
  <> implication
    critical-pairs A10 with H1
  [] implication
  [] conjecture
  qed

% gf(x1) == gf'(x1)
duty convert.1
  [] conjecture
  qed
