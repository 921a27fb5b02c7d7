register height __ * __ > unit
set box-checking on

% x * (y * z) == y * (x * z)
duty imply.1
  resume by contradiction
  <> contradiction
    instantiate x by yc, y by zc in A4
    normalize H1
    instantiate x by yc, y by xc * zc in A4
  [] contradiction
  [] conjecture
  qed

% (x * y) * z == (x * z) * y
duty imply.2
  resume by contradiction
  <> contradiction
    instantiate x by yc, y by zc in A4
    normalize H1
  [] contradiction
  [] conjecture
  qed

% x * (y * z) == z * (y * x)
duty imply.3
  resume by contradiction
  <> contradiction
    instantiate x by yc, y by zc in A4
    normalize H1
    instantiate x by xc, y by zc, z by yc in L1
    normalize D2
  [] contradiction
  [] conjecture
  qed

% (w * x) * (y * z) == (w * y) * (x * z)
duty imply.4
  resume by contradiction
  <> contradiction
    instantiate x by xc, y by yc, z by zc in L1
    normalize H1
  [] contradiction
  [] conjecture
  qed
