% The list decides: what was put together so far grows.
register status right-to-left reduceOnto
set box-checking on

% reduce(single(e)) == e
duty imply.1
  [] conjecture
  qed

% reduce(k ++ l) == reduce(k) * reduce(l)
duty imply.2
  resume by induction on k
  <> basis nil
  [] basis nil
  <> step cons(ac, kc)
  [] step cons(ac, kc)
  [] conjecture
  qed

% reduceOnto(a, l) == a * reduce(l)
duty imply.3
  resume by induction on l
  <> basis nil
  [] basis nil
  <> step cons(ac, lc)
  [] step cons(ac, lc)
  [] conjecture
  qed

% reduce(l) == reduceOnto(unit, l)
duty imply.4
  [] conjecture
  qed

% reduceOnto(a, k ++ l) == reduceOnto(reduceOnto(a, k), l)
duty imply.5
  [] conjecture
  qed

% reduce(x1) == reduce'(x1)
duty convert.1
  resume by induction on x1
  <> basis nil
  [] basis nil
  <> step cons(ac, x1c)
  [] step cons(ac, x1c)
  [] conjecture
  qed

% reduceOnto(x1, x2) == reduceOnto'(x1, x2)
duty convert.2
  register status right-to-left reduceOnto'
  normalize A25
  resume by induction on x2
  <> basis nil
  [] basis nil
  <> step cons(ac, x2c)
  [] step cons(ac, x2c)
  [] conjecture
  qed
