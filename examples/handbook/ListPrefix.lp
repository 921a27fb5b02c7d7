set box-checking on

% isPrefix(x, x)
duty imply.1
  resume by induction on x
  <> basis nil
  [] basis nil
  <> step cons(ac, xc)
  [] step cons(ac, xc)
  [] conjecture
  qed

% (isPrefix(x, y) /\ isPrefix(y, z)) => isPrefix(x, z)
duty imply.2
  resume by induction on x
  <> basis nil
  [] basis nil
  <> step cons(ac, xc)
    resume by induction on y
    <> basis nil
    [] basis nil
    <> step cons(ac1, yc)
      resume by induction on z
      <> basis nil
      [] basis nil
      <> step cons(ac2, zc)
        resume by =>
        <> implication
          instantiate y by yc, z by zc in H1
        [] implication
      [] step cons(ac2, zc)
    [] step cons(ac1, yc)
  [] step cons(ac, xc)
  [] conjecture
  qed

% (isPrefix(x, y) /\ isPrefix(y, x)) => (x = y)
duty imply.3
  resume by induction on x
  <> basis nil
    resume by induction on y
    <> basis nil
    [] basis nil
    <> step cons(ac1, yc)
    [] step cons(ac1, yc)
  [] basis nil
  <> step cons(ac, xc)
    resume by induction on y
    <> basis nil
    [] basis nil
    <> step cons(ac2, yc1)
      resume by =>
      <> implication
        instantiate y by yc1 in H2
      [] implication
    [] step cons(ac2, yc1)
  [] step cons(ac, xc)
  [] conjecture
  qed

% isPrefix(k, k ++ l)
duty imply.4
  resume by induction on k
  <> basis nil
  [] basis nil
  <> step cons(ac, kc)
  [] step cons(ac, kc)
  [] conjecture
  qed

% isPrefix(k ++ j, k ++ l) == isPrefix(j, l)
duty imply.5
  resume by induction on k
  <> basis nil
  [] basis nil
  <> step cons(ac, kc)
  [] step cons(ac, kc)
  [] conjecture
  qed

% rest(k, k ++ l) == l
duty imply.6
  resume by induction on k
  <> basis nil
  [] basis nil
  <> step cons(ac, kc)
  [] step cons(ac, kc)
  [] conjecture
  qed

% isPrefix(k, l) => ((k ++ rest(k, l)) = l)
duty imply.7
  resume by induction on k
  <> basis nil
  [] basis nil
  <> step cons(ac, kc)
    resume by induction on l
    <> basis nil
    [] basis nil
    <> step cons(ac1, lc)
      resume by =>
      <> implication
        instantiate l by lc in H1
      [] implication
    [] step cons(ac1, lc)
  [] step cons(ac, kc)
  [] conjecture
  qed

% isPrefix(k, nil) == isEmpty(k)
duty imply.8
  resume by induction on k
  <> basis nil
  [] basis nil
  <> step cons(ac, kc)
  [] step cons(ac, kc)
  [] conjecture
  qed

% isPrefix(k, l) => isPrefix(k, l ++ j)
duty imply.9
  resume by induction on k
  <> basis nil
  [] basis nil
  <> step cons(ac, kc)
    resume by induction on l
    <> basis nil
    [] basis nil
    <> step cons(ac1, lc)
      resume by cases ac = ac1
      <> case ac = ac1
      [] case ac = ac1
      <> case ~(ac = ac1)
      [] case ~(ac = ac1)
    [] step cons(ac1, lc)
  [] step cons(ac, kc)
  [] conjecture
  qed

% isPrefix(x1, x2) == isPrefix'(x1, x2)
duty convert.1
  resume by induction on x1
  <> basis nil
  [] basis nil
  <> step cons(ac, x1c)
    resume by induction on x2
    <> basis nil
    [] basis nil
    <> step cons(ac1, x2c)
    [] step cons(ac1, x2c)
  [] step cons(ac, x1c)
  [] conjecture
  qed

% rest(x1, x2) == rest'(x1, x2)
duty convert.2
  resume by induction on x1
  <> basis nil
  [] basis nil
  <> step cons(ac, x1c)
    resume by induction on x2
    <> basis nil
    [] basis nil
    <> step cons(ac1, x2c)
    [] step cons(ac1, x2c)
  [] step cons(ac, x1c)
  [] conjecture
  qed
