set box-checking on

% x <= x
duty imply.1
  [] conjecture
  qed

% ((x <= y) /\ (y <= z)) => (x <= z)
duty imply.2
  resume by =>
  <> implication
    instantiate x by xc.first, y by yc.first, z by zc.first in A2
    instantiate x by xc.second, y by yc.second, z by zc.second in A5
  [] implication
  [] conjecture
  qed

% ((x <= y) /\ (y <= x)) => (x = y)
duty imply.3
  resume by =>
  <> implication
    resume by partition
    <> observer 1
      instantiate x by xc.first, y by yc.first in A3
    [] observer 1
    <> observer 2
      instantiate x by xc.second, y by yc.second in A6
    [] observer 2
  [] implication
  [] conjecture
  qed

% [a, b] <= [a, d] == b <= d
duty imply.4
  [] conjecture
  qed

% [a, b] <= [c, b] == a <= c
duty imply.5
  [] conjecture
  qed

% [a, b] <= [c, d] == ([a, b] <= [c, b]) /\ ([c, b] <= [c, d])
duty imply.6
  [] conjecture
  qed

% x1 <= x2 == conv1'(x1, x2)
duty convert.1
  [] conjecture
  qed
