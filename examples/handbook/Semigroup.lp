set box-checking on

% (w * x) * (y * z) == w * ((x * y) * z)
duty imply.1
  [] conjecture
  qed

% ((w * x) * y) * z == w * (x * (y * z))
duty imply.2
  [] conjecture
  qed
