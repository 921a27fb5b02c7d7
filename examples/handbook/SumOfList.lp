declare variables x, y, z: N
set box-checking on

% (x + y) + z == x + (y + z)
duty assume.1
  resume by induction on z
  <> basis 0
  [] basis 0
  <> step s(zc)
  [] step s(zc)
  [] conjecture
  qed

% 0 + x == x
duty assume.2
  resume by induction on x
  <> basis 0
  [] basis 0
  <> step s(xc)
  [] step s(xc)
  [] conjecture
  qed

% x + 0 == x
duty assume.3
  [] conjecture
  qed

% x + y == y + x
duty assume.4
  resume by induction on x
  <> basis 0
  [] basis 0
  <> step s(xc)
    resume by induction on y
    <> basis 0
    [] basis 0
    <> step s(yc)
      instantiate y by s(yc) in H1
    [] step s(yc)
  [] step s(xc)
  [] conjecture
  qed

% (x * y) * z == x * (y * z)
duty assume.5
  prove x * (y + z) == (x * y) + (x * z)
    resume by induction on z
    <> basis 0
    [] basis 0
    <> step s(zc)
    [] step s(zc)
  [] lemma
  resume by induction on z
  <> basis 0
  [] basis 0
  <> step s(zc1)
  [] step s(zc1)
  [] conjecture
  qed

% 1 * x == x
duty assume.6
  resume by induction on x
  <> basis 0
  [] basis 0
  <> step s(xc)
  [] step s(xc)
  [] conjecture
  qed

% x * 1 == x
duty assume.7
  [] conjecture
  qed

% x * y == y * x
duty assume.8
  prove s(x) + y == s(x + y)
    resume by induction on y
    <> basis 0
    [] basis 0
    <> step s(yc)
    [] step s(yc)
  [] lemma
  prove (z + x) = (z + y) == x = y
    resume by induction on z
    <> basis 0
    [] basis 0
    <> step s(zc)
    [] step s(zc)
  [] lemma
  prove (x + z) = (y + z) == x = y
    resume by induction on z
    <> basis 0
    [] basis 0
    <> step s(zc1)
    [] step s(zc1)
  [] lemma
  prove s(x) * y == (x * y) + y
    resume by induction on y
    <> basis 0
    [] basis 0
    <> step s(yc1)
    [] step s(yc1)
  [] lemma
  prove 0 * x == 0
    resume by induction on x
    <> basis 0
    [] basis 0
    <> step s(xc)
    [] step s(xc)
  [] lemma
  resume by induction on x
  <> basis 0
  [] basis 0
  <> step s(xc1)
  [] step s(xc1)
  [] conjecture
  qed

% k * (sum(j) + sum(l)) == (k * sum(j)) + (k * sum(l))
duty imply.1
  prove x * (y + z) == (x * y) + (x * z)
    resume by induction on z
    <> basis 0
    [] basis 0
    <> step s(zc)
    [] step s(zc)
  [] lemma
  [] conjecture
  qed

% sum(scale(k, l)) == k * sum(l)
duty imply.2
  prove x * (y + z) == (x * y) + (x * z)
    resume by induction on z
    <> basis 0
    [] basis 0
    <> step s(zc)
    [] step s(zc)
  [] lemma
  resume by induction on l
  <> basis nil
  [] basis nil
  <> step cons(ac, lc)
  [] step cons(ac, lc)
  [] conjecture
  qed

% scale(k, j ++ l) == scale(k, j) ++ scale(k, l)
duty imply.3
  resume by induction on j
  <> basis nil
  [] basis nil
  <> step cons(ac, jc)
  [] step cons(ac, jc)
  [] conjecture
  qed

% scale(1, l) == l
duty imply.4
  resume by induction on l
  <> basis nil
  [] basis nil
  <> step cons(ac, lc)
  [] step cons(ac, lc)
  [] conjecture
  qed

% product(cons(0, l)) == 0
duty imply.5
  prove 0 * x == 0
    resume by induction on x
    <> basis 0
    [] basis 0
    <> step s(xc)
    [] step s(xc)
  [] lemma
  [] conjecture
  qed

% scale(x1, x2) == scale'(x1, x2)
duty convert.1
  resume by induction on x2
  <> basis nil
  [] basis nil
  <> step cons(ac, x2c)
  [] step cons(ac, x2c)
  [] conjecture
  qed
