set box-checking on

% (x * y) * z == x * (y * z)
duty imply.1
  resume by partition
  <> observer
  [] observer
  [] conjecture
  qed

% same * x == x
duty imply.2
  resume by partition
  <> observer
  [] observer
  [] conjecture
  qed

% x * same == x
duty imply.3
  resume by partition
  <> observer
  [] observer
  [] conjecture
  qed

% constant(x) * f == constant(x)
duty imply.4
  resume by partition
  <> observer
  [] observer
  [] conjecture
  qed

% f * constant(x) == constant(f[x])
duty imply.5
  resume by partition
  <> observer
  [] observer
  [] conjecture
  qed

% square(constant(x)) == constant(x)
duty imply.6
  [] conjecture
  qed

% square(same) == same
duty imply.7
  [] conjecture
  qed

% square(f)[x] == f[f[x]]
duty imply.8
  [] conjecture
  qed

% square(square(f)) == f * (f * (f * f))
duty imply.9
  [] conjecture
  qed

% constant(x) = constant(y) == x = y
duty imply.10
  resume by cases x = y
  <> case xc = yc
  [] case xc = yc
  <> case ~(xc = yc)
    resume by contradiction
    <> contradiction
      critical-pairs A4 with H3
      normalize H2
    [] contradiction
  [] case ~(xc = yc)
  [] conjecture
  qed

% ((f * g) = same) => ((g * (f * (g * f))) = (g * f))
duty imply.11
  resume by =>
  <> implication
    critical-pairs L1 with H1
  [] implication
  [] conjecture
  qed

% same == same'
duty convert.1
  resume by partition
  <> observer
  [] observer
  [] conjecture
  qed

% x1 * x2 == conv2'(x1, x2)
duty convert.2
  resume by partition
  <> observer
  [] observer
  [] conjecture
  qed

% constant(x1) == constant'(x1)
duty convert.3
  resume by partition
  <> observer
  [] observer
  [] conjecture
  qed

% square(x1) == square'(x1)
duty convert.4
  [] conjecture
  qed
