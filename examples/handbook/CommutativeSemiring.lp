set box-checking on

% x + (y + z) == y + (x + z)
duty imply.1
  resume by contradiction
  <> contradiction
    instantiate x by yc, y by zc in A4
    normalize H1
    instantiate x by yc, y by xc + zc in A4
  [] contradiction
  [] conjecture
  qed

% x * (y * z) == y * (x * z)
duty imply.2
  resume by contradiction
  <> contradiction
    instantiate x by yc, y by zc in A12
    normalize H1
    instantiate x by yc, y by xc * zc in A12
  [] contradiction
  [] conjecture
  qed

% x * (y + z) == (y * x) + (z * x)
duty imply.3
  resume by contradiction
  <> contradiction
    instantiate x by xc, y by yc in A12
    normalize H1
    instantiate x by xc, y by zc in A12
    normalize D2
  [] contradiction
  [] conjecture
  qed

% (x + y) * (x + y) == (x * x) + ((x * y) + ((x * y) + (y * y)))
duty imply.4
  resume by contradiction
  <> contradiction
    instantiate x by yc, y by xc in A12
    normalize H1
  [] contradiction
  [] conjecture
  qed
