% The list decides: what a node is compared with isn't known to be less.
register status right-to-left isPath
register status right-to-left end
set box-checking on

% isPath(x, nil, x)
duty imply.1
  [] conjecture
  qed

% isPath(x, single(y), y) == edge(x, y)
duty imply.2
  [] conjecture
  qed

% (isPath(x, p, y) /\ isPath(y, q, z)) => isPath(x, p ++ q, z)
duty imply.3
  resume by induction on p
  <> basis nil
    resume by =>
    <> implication
    [] implication
  [] basis nil
  <> step cons(ac, pc)
    resume by cases edge(x, ac)
    <> case edge(xc1, ac)
    [] case edge(xc1, ac)
    <> case ~(edge(xc1, ac))
    [] case ~(edge(xc1, ac))
  [] step cons(ac, pc)
  [] conjecture
  qed

% isPath(x, p, y) => (end(x, p) = y)
duty imply.4
  resume by induction on p
  <> basis nil
  [] basis nil
  <> step cons(ac, pc)
    resume by cases edge(x, ac)
    <> case edge(xc, ac)
    [] case edge(xc, ac)
    <> case ~(edge(xc, ac))
    [] case ~(edge(xc, ac))
  [] step cons(ac, pc)
  [] conjecture
  qed

% isPath(x, p ++ q, z) == isPath(x, p, end(x, p)) /\ isPath(end(x, p), q, z)
duty imply.5
  resume by induction on p
  <> basis nil
  [] basis nil
  <> step cons(ac, pc)
    resume by cases edge(x, ac)
    <> case edge(xc, ac)
    [] case edge(xc, ac)
    <> case ~(edge(xc, ac))
    [] case ~(edge(xc, ac))
  [] step cons(ac, pc)
  [] conjecture
  qed

% end(x, p ++ q) == end(end(x, p), q)
duty imply.6
  resume by induction on p
  <> basis nil
  [] basis nil
  <> step cons(ac, pc)
  [] step cons(ac, pc)
  [] conjecture
  qed

% end(x, p ++ single(y)) == y
duty imply.7
  [] conjecture
  qed

% (isPath(x, p, y) /\ isPath(x, p, z)) => (y = z)
duty imply.8
  resume by induction on p
  <> basis nil
    resume by =>
    <> implication
    [] implication
  [] basis nil
  <> step cons(ac, pc)
    resume by cases edge(x, ac)
    <> case edge(xc1, ac)
    [] case edge(xc1, ac)
    <> case ~(edge(xc1, ac))
    [] case ~(edge(xc1, ac))
  [] step cons(ac, pc)
  [] conjecture
  qed

% (isPath(x, p, y) /\ edge(y, z)) => isPath(x, p ++ single(z), z)
duty imply.9
  resume by =>
  <> implication
    instantiate x by xc, p by pc, y by yc, q by single(zc), z by zc in L3
  [] implication
  [] conjecture
  qed

% (isPath(x, p, x) /\ isPath(x, q, x)) => isPath(x, p ++ q, x)
duty imply.10
  [] conjecture
  qed

% isPath(x1, x2, x3) == isPath'(x1, x2, x3)
duty convert.1
  resume by induction on x2
  <> basis nil
  [] basis nil
  <> step cons(ac, x2c)
    instantiate x by x1, z by ac, p by x2c, y by x3 in A28
  [] step cons(ac, x2c)
  [] conjecture
  qed

% end(x1, x2) == end'(x1, x2)
duty convert.2
  resume by induction on x2
  <> basis nil
  [] basis nil
  <> step cons(ac, x2c)
    instantiate x by x1, z by ac, p by x2c in A30
  [] step cons(ac, x2c)
  [] conjecture
  qed
