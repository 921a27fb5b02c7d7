set box-checking on

% (x * y) * z == x * (y * z)
duty imply.1
  resume by partition
  <> observer
  [] observer
  [] conjecture
  qed

% same * x == x
duty imply.2
  resume by partition
  <> observer
  [] observer
  [] conjecture
  qed

% inv(x) * x == same
duty imply.3
  resume by partition
  <> observer
  [] observer
  [] conjecture
  qed

% (f[x]) = (f[y]) == x = y
duty imply.4
  resume by cases x = y
  <> case xc = yc
  [] case xc = yc
  <> case ~(xc = yc)
    resume by contradiction
    <> contradiction
      critical-pairs A6 with H3
      normalize H2
    [] contradiction
  [] case ~(xc = yc)
  [] conjecture
  qed

% f * inv(f) == same
duty imply.5
  resume by partition
  <> observer
  [] observer
  [] conjecture
  qed

% inv(inv(f)) == f
duty imply.6
  critical-pairs A6 with A6
  resume by partition
  <> observer
  [] observer
  [] conjecture
  qed

% (inv(f)[x]) = y == x = (f[y])
duty imply.7
  resume by cases inv(f)[x] = y
  <> case (inv(fc)[xc]) = yc
    critical-pairs A7 with H1
  [] case (inv(fc)[xc]) = yc
  <> case ~((inv(fc)[xc]) = yc)
    resume by contradiction
    <> contradiction
      critical-pairs A6 with H3
      normalize H2
    [] contradiction
  [] case ~((inv(fc)[xc]) = yc)
  [] conjecture
  qed

% inv(f * g) == inv(g) * inv(f)
duty imply.8
  resume by partition
  <> observer
    instantiate f by f * g, x by ac, y by inv(g)[inv(f)[ac]] in L7
  [] observer
  [] conjecture
  qed

% square(inv(f)) == inv(square(f))
duty imply.9
  [] conjecture
  qed

% inv(x1) == inv'(x1)
duty convert.1
  critical-pairs A6 with A9
  resume by partition
  <> observer
  [] observer
  [] conjecture
  qed
