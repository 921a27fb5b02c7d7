set box-checking on

% succ(x) + y == succ(x + y)
duty imply.1
  resume by induction on y
  <> basis 0
  [] basis 0
  <> step succ(yc)
  [] step succ(yc)
  <> step pred(yc1)
  [] step pred(yc1)
  [] conjecture
  qed

% pred(x) + y == pred(x + y)
duty imply.2
  resume by induction on y
  <> basis 0
  [] basis 0
  <> step succ(yc)
  [] step succ(yc)
  <> step pred(yc1)
  [] step pred(yc1)
  [] conjecture
  qed

% 0 + x == x
duty imply.3
  resume by induction on x
  <> basis 0
  [] basis 0
  <> step succ(xc)
  [] step succ(xc)
  <> step pred(xc1)
  [] step pred(xc1)
  [] conjecture
  qed

% (x + y) + z == x + (y + z)
duty imply.4
  resume by induction on x
  <> basis 0
  [] basis 0
  <> step succ(xc)
  [] step succ(xc)
  <> step pred(xc1)
  [] step pred(xc1)
  [] conjecture
  qed

% x + y == y + x
duty imply.5
  resume by induction on x
  <> basis 0
  [] basis 0
  <> step succ(xc)
    resume by induction on y
    <> basis 0
    [] basis 0
    <> step succ(yc)
    [] step succ(yc)
    <> step pred(yc1)
    [] step pred(yc1)
  [] step succ(xc)
  <> step pred(xc1)
    resume by induction on y
    <> basis 0
    [] basis 0
    <> step succ(yc2)
    [] step succ(yc2)
    <> step pred(yc3)
    [] step pred(yc3)
  [] step pred(xc1)
  [] conjecture
  qed

% x + (y + z) == y + (x + z)
duty imply.6
  resume by induction on x
  <> basis 0
  [] basis 0
  <> step succ(xc)
    resume by induction on y
    <> basis 0
    [] basis 0
    <> step succ(yc)
    [] step succ(yc)
    <> step pred(yc1)
    [] step pred(yc1)
  [] step succ(xc)
  <> step pred(xc1)
    resume by induction on y
    <> basis 0
    [] basis 0
    <> step succ(yc2)
    [] step succ(yc2)
    <> step pred(yc3)
    [] step pred(yc3)
  [] step pred(xc1)
  [] conjecture
  qed

% x + (- x) == 0
duty imply.7
  resume by induction on x
  <> basis 0
  [] basis 0
  <> step succ(xc)
  [] step succ(xc)
  <> step pred(xc1)
  [] step pred(xc1)
  [] conjecture
  qed

% (- x) + x == 0
duty imply.8
  resume by induction on x
  <> basis 0
  [] basis 0
  <> step succ(xc)
  [] step succ(xc)
  <> step pred(xc1)
  [] step pred(xc1)
  [] conjecture
  qed

% - (x + y) == (- x) + (- y)
duty imply.9
  resume by induction on x
  <> basis 0
  [] basis 0
  <> step succ(xc)
  [] step succ(xc)
  <> step pred(xc1)
  [] step pred(xc1)
  [] conjecture
  qed

% - (- x) == x
duty imply.10
  resume by induction on x
  <> basis 0
  [] basis 0
  <> step succ(xc)
  [] step succ(xc)
  <> step pred(xc1)
  [] step pred(xc1)
  [] conjecture
  qed

% 0 * x == 0
duty imply.11
  resume by induction on x
  <> basis 0
  [] basis 0
  <> step succ(xc)
  [] step succ(xc)
  <> step pred(xc1)
  [] step pred(xc1)
  [] conjecture
  qed

% x * 1 == x
duty imply.12
  [] conjecture
  qed

% 1 * x == x
duty imply.13
  resume by induction on x
  <> basis 0
  [] basis 0
  <> step succ(xc)
  [] step succ(xc)
  <> step pred(xc1)
  [] step pred(xc1)
  [] conjecture
  qed

% succ(x) * y == (x * y) + y
duty imply.14
  instantiate y by x * y, x by y in L5
  resume by induction on y
  <> basis 0
  [] basis 0
  <> step succ(yc)
  [] step succ(yc)
  <> step pred(yc1)
  [] step pred(yc1)
  [] conjecture
  qed

% pred(x) * y == (x * y) + (- y)
duty imply.15
  instantiate y by x * y, x by - y in L5
  resume by induction on y
  <> basis 0
  [] basis 0
  <> step succ(yc)
  [] step succ(yc)
  <> step pred(yc1)
  [] step pred(yc1)
  [] conjecture
  qed

% x * y == y * x
duty imply.16
  resume by induction on x
  <> basis 0
  [] basis 0
  <> step succ(xc)
    resume by induction on y
    <> basis 0
    [] basis 0
    <> step succ(yc)
      instantiate y by yc in H1
    [] step succ(yc)
    <> step pred(yc1)
      instantiate y by yc1 in H1
    [] step pred(yc1)
  [] step succ(xc)
  <> step pred(xc1)
    resume by induction on y
    <> basis 0
    [] basis 0
    <> step succ(yc2)
      instantiate y by yc2 in H4
    [] step succ(yc2)
    <> step pred(yc3)
      instantiate y by yc3 in H4
    [] step pred(yc3)
  [] step pred(xc1)
  [] conjecture
  qed

% x * (y + z) == (x * y) + (x * z)
duty imply.17
  resume by induction on z
  <> basis 0
  [] basis 0
  <> step succ(zc)
  [] step succ(zc)
  <> step pred(zc1)
  [] step pred(zc1)
  [] conjecture
  qed

% (x + y) * z == (x * z) + (y * z)
duty imply.18
  resume by induction on y
  <> basis 0
  [] basis 0
  <> step succ(yc)
  [] step succ(yc)
  <> step pred(yc1)
  [] step pred(yc1)
  [] conjecture
  qed

% x * (- y) == - (x * y)
duty imply.19
  resume by induction on x
  <> basis 0
  [] basis 0
  <> step succ(xc)
  [] step succ(xc)
  <> step pred(xc1)
  [] step pred(xc1)
  [] conjecture
  qed

% (- x) * y == - (x * y)
duty imply.20
  resume by induction on x
  <> basis 0
  [] basis 0
  <> step succ(xc)
  [] step succ(xc)
  <> step pred(xc1)
  [] step pred(xc1)
  [] conjecture
  qed

% (- x) * (- y) == x * y
duty imply.21
  [] conjecture
  qed

% x * (y - z) == (x * y) - (x * z)
duty imply.22
  [] conjecture
  qed

% (x * y) * z == x * (y * z)
duty imply.23
  resume by induction on x
  <> basis 0
  [] basis 0
  <> step succ(xc)
  [] step succ(xc)
  <> step pred(xc1)
  [] step pred(xc1)
  [] conjecture
  qed

% 1 == 1'
duty convert.1
  [] conjecture
  qed

% x1 * x2 == conv2'(x1, x2)
duty convert.2
  resume by induction on x2
  <> basis 0
  [] basis 0
  <> step succ(x2c)
  [] step succ(x2c)
  <> step pred(x2c1)
  [] step pred(x2c1)
  [] conjecture
  qed
