register height __ * __: A, A -> A > unit: -> A
register height __ * __: B, B -> B > unit: -> B
set box-checking on

% x * unit == x
duty imply.1
  critical-pairs A1 with A3
  critical-pairs D1 with A3
  critical-pairs D1 with D1
  normalize D2
  [] conjecture
  qed

% x * unit == x
duty imply.2
  critical-pairs A4 with A6
  critical-pairs D1 with A6
  critical-pairs D1 with D1
  normalize D2
  [] conjecture
  qed

% inv(u) * (u * v) == v
duty imply.3
  critical-pairs A4 with A6
  [] conjecture
  qed

% x * inv(x) == unit
duty imply.4
  critical-pairs A1 with A3
  critical-pairs D1 with A3
  instantiate x by inv(x) in A3
  [] conjecture
  qed

% u * inv(u) == unit
duty imply.5
  critical-pairs L3 with A6
  instantiate x by inv(u) in A6
  [] conjecture
  qed

% u * (inv(u) * v) == v
duty imply.6
  critical-pairs L3 with A6
  instantiate u by inv(u) in L3
  [] conjecture
  qed

% (u * u) = u == u = unit
duty imply.7
  resume by cases u = unit
  <> case uc = unit
    normalize A5
  [] case uc = unit
  <> case ~(uc = unit)
    resume by contradiction
    <> contradiction
      critical-pairs L3 with H3
      normalize H2
    [] contradiction
  [] case ~(uc = unit)
  [] conjecture
  qed

% f(unit) == unit
duty imply.8
  instantiate x by unit, y by unit in A7
  instantiate u by f(unit) in L7
  [] conjecture
  qed

% (u * v) = unit == v = inv(u)
duty imply.9
  resume by cases (u * v) = unit
  <> case (uc * vc) = unit
    instantiate u by uc, v by vc in L3
  [] case (uc * vc) = unit
  <> case ~((uc * vc) = unit)
    resume by contradiction
    <> contradiction
      instantiate u by uc in L5
      normalize H2
    [] contradiction
  [] case ~((uc * vc) = unit)
  [] conjecture
  qed

% f(inv(x)) == inv(f(x))
duty imply.10
  instantiate x by x, y by inv(x) in A7
  instantiate u by f(x), v by f(inv(x)) in L9
  [] conjecture
  qed

% inKernel(unit)
duty imply.11
  [] conjecture
  qed

% (inKernel(x) /\ inKernel(y)) => inKernel(x * y)
duty imply.12
  resume by =>
  <> implication
  [] implication
  [] conjecture
  qed

% inKernel(x) => inKernel(inv(x))
duty imply.13
  resume by =>
  <> implication
    instantiate u by unit in L9
  [] implication
  [] conjecture
  qed

% inKernel(x) => inKernel(y * (x * inv(y)))
duty imply.14
  resume by =>
  <> implication
  [] implication
  [] conjecture
  qed

% f(x) = f(y) == inKernel(x * inv(y))
duty imply.15
  resume by cases f(x) = f(y)
  <> case f(xc) = f(yc)
  [] case f(xc) = f(yc)
  <> case ~(f(xc) = f(yc))
    resume by contradiction
    <> contradiction
      critical-pairs A4 with H3
      instantiate v1 by f(yc) in D1
      normalize H2
    [] contradiction
  [] case ~(f(xc) = f(yc))
  [] conjecture
  qed

% inKernel(x1) == inKernel'(x1)
duty convert.1
  [] conjecture
  qed
