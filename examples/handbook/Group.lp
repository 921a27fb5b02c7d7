register height __ * __ > unit
set box-checking on

% x * unit == x
duty imply.1
  % inv(x) * (x * y) is y,
  critical-pairs A1 with A3
  % and so inv(inv(x)) * unit is x, and inv(inv(x)) * y is x * y.
  critical-pairs D1 with A3
  critical-pairs D1 with D1
  normalize D2
  [] conjecture
  qed

% inv(x) * (x * y) == y
duty imply.2
  critical-pairs A1 with A3
  [] conjecture
  qed

% inv(inv(x)) == x
duty imply.3
  critical-pairs L2 with A3
  [] conjecture
  qed

% x * inv(x) == unit
duty imply.4
  instantiate x by inv(x) in A3
  [] conjecture
  qed

% x * (inv(x) * y) == y
duty imply.5
  instantiate x by inv(x) in L2
  [] conjecture
  qed

% inv(unit) == unit
duty imply.6
  instantiate x by unit in A3
  [] conjecture
  qed

% inv(x * y) == inv(y) * inv(x)
duty imply.7
  % inv(x * y) * ((x * y) * (inv(y) * inv(x))), put together in two ways
  instantiate x by x * y, y by inv(y) * inv(x) in L2
  [] conjecture
  qed

% (z * x) = (z * y) == x = y
duty imply.8
  resume by cases x = y
  <> case xc = yc
  [] case xc = yc
  <> case ~(xc = yc)
    resume by contradiction
    <> contradiction
      critical-pairs L2 with H3
      normalize H2
    [] contradiction
  [] case ~(xc = yc)
  [] conjecture
  qed

% (x * z) = (y * z) == x = y
duty imply.9
  resume by cases x = y
  <> case xc = yc
  [] case xc = yc
  <> case ~(xc = yc)
    resume by contradiction
    <> contradiction
      critical-pairs A1 with H3
      instantiate v1 by inv(zc) in D1
      normalize H2
    [] contradiction
  [] case ~(xc = yc)
  [] conjecture
  qed

% inv(x) = inv(y) == x = y
duty imply.10
  resume by cases x = y
  <> case xc = yc
  [] case xc = yc
  <> case ~(xc = yc)
    resume by contradiction
    <> contradiction
      critical-pairs L3 with H3
      normalize H2
    [] contradiction
  [] case ~(xc = yc)
  [] conjecture
  qed

% (x * y) = unit == y = inv(x)
duty imply.11
  resume by cases (x * y) = unit
  <> case (xc * yc) = unit
    instantiate x by xc, y by yc in L2
  [] case (xc * yc) = unit
  <> case ~((xc * yc) = unit)
    resume by contradiction
    <> contradiction
      instantiate x by xc in L4
      normalize H2
    [] contradiction
  [] case ~((xc * yc) = unit)
  [] conjecture
  qed

% (x * y) = z == x = (z * inv(y))
duty imply.12
  resume by cases (x * y) = z
  <> case (xc * yc) = zc
    critical-pairs A1 with H1
    instantiate v1 by inv(yc) in D1
  [] case (xc * yc) = zc
  <> case ~((xc * yc) = zc)
    resume by cases xc = (zc * inv(yc))
    <> case xc = (zc * inv(yc))
      critical-pairs A1 with H3
      instantiate v1 by yc in D3
      normalize H2
    [] case xc = (zc * inv(yc))
    <> case ~(xc = (zc * inv(yc)))
    [] case ~(xc = (zc * inv(yc)))
  [] case ~((xc * yc) = zc)
  [] conjecture
  qed

% (x * x) = x == x = unit
duty imply.13
  instantiate y by unit in L8
  [] conjecture
  qed

% unit == unit'
duty convert.1
  instantiate x by unit' in L1
  [] conjecture
  qed

% inv(x1) == inv'(x1)
duty convert.2
  % inv'(x) * (x * y) is y
  critical-pairs A1 with A5
  instantiate v1 by inv(x1), v2 by x1 in D1
  [] conjecture
  qed
