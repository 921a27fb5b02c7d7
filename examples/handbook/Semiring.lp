set box-checking on

% x + (y + z) == y + (x + z)
duty imply.1
  resume by contradiction
  <> contradiction
    instantiate x by yc, y by zc in A4
    normalize H1
    instantiate x by yc, y by xc + zc in A4
  [] contradiction
  [] conjecture
  qed

% (w + x) + (y + z) == (w + y) + (x + z)
duty imply.2
  resume by contradiction
  <> contradiction
    instantiate x by xc, y by yc, z by zc in L1
    normalize H1
  [] contradiction
  [] conjecture
  qed

% (x + 1) * y == (x * y) + y
duty imply.3
  [] conjecture
  qed

% x * (y + 1) == (x * y) + x
duty imply.4
  [] conjecture
  qed

% (w + x) * (y + z) == ((w * y) + (w * z)) + ((x * y) + (x * z))
duty imply.5
  [] conjecture
  qed
