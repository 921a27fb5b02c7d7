set box-checking on

% (x * z) = (y * z) == x = y
duty imply.1
  resume by cases x = y
  <> case xc = yc
  [] case xc = yc
  <> case ~(xc = yc)
    resume by contradiction
    <> contradiction
      instantiate x by xc, y by zc in A4
      instantiate x by yc, y by zc in A4
    [] contradiction
  [] case ~(xc = yc)
  [] conjecture
  qed

% (x * y) = x == y = unit
duty imply.2
  instantiate y by unit in A5
  [] conjecture
  qed

% (x * y) = y == x = unit
duty imply.3
  instantiate y by unit in L1
  [] conjecture
  qed
