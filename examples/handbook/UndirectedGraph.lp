% The list decides: what a node is compared with isn't known to be less.
register status right-to-left isPath
register status right-to-left end
register status right-to-left back
set box-checking on

% s(m) + n == s(m + n)
duty imply.1
  resume by induction on n
  <> basis 0
  [] basis 0
  <> step s(nc)
  [] step s(nc)
  [] conjecture
  qed

% m + n == n + m
duty imply.2
  resume by induction on m
  <> basis 0
    resume by induction on n
    <> basis 0
    [] basis 0
    <> step s(nc)
    [] step s(nc)
  [] basis 0
  <> step s(mc)
  [] step s(mc)
  [] conjecture
  qed

% 0 + n == n
duty imply.3
  resume by induction on n
  <> basis 0
  [] basis 0
  <> step s(nc)
  [] step s(nc)
  [] conjecture
  qed

% p ++ nil == p
duty imply.4
  resume by induction on p
  <> basis nil
  [] basis nil
  <> step cons(ac, pc)
  [] step cons(ac, pc)
  [] conjecture
  qed

% (p ++ q) ++ r == p ++ (q ++ r)
duty imply.5
  resume by induction on p
  <> basis nil
  [] basis nil
  <> step cons(ac, pc)
  [] step cons(ac, pc)
  [] conjecture
  qed

% (isPath(x, p, y) /\ isPath(y, q, z)) => isPath(x, p ++ q, z)
duty imply.6
  resume by induction on p
  <> basis nil
    resume by =>
    <> implication
    [] implication
  [] basis nil
  <> step cons(ac, pc)
    resume by cases edge(x, ac)
    <> case edge(xc1, ac)
    [] case edge(xc1, ac)
    <> case ~(edge(xc1, ac))
    [] case ~(edge(xc1, ac))
  [] step cons(ac, pc)
  [] conjecture
  qed

% isPath(x, p, y) => isPath(y, back(x, p), x)
duty imply.7
  resume by induction on p
  <> basis nil
    resume by =>
    <> implication
    [] implication
  [] basis nil
  <> step cons(ac, pc)
    resume by contradiction
    <> contradiction
      instantiate x by ac, y by yc1 in H2
      instantiate x by yc1, p by back(ac, pc), y by ac, q by cons(xc1, nil), z by xc1 in L6
      instantiate x by xc1, y by ac in A27
    [] contradiction
  [] step cons(ac, pc)
  [] conjecture
  qed

% length(p ++ q) == length(p) + length(q)
duty imply.8
  resume by induction on p
  <> basis nil
  [] basis nil
  <> step cons(ac, pc)
  [] step cons(ac, pc)
  [] conjecture
  qed

% length(back(x, p)) == length(p)
duty imply.9
  resume by induction on p
  <> basis nil
  [] basis nil
  <> step cons(ac, pc)
  [] step cons(ac, pc)
  [] conjecture
  qed

% back(x, p ++ q) == back(end(x, p), q) ++ back(x, p)
duty imply.10
  resume by induction on p
  <> basis nil
  [] basis nil
  <> step cons(ac, pc)
  [] step cons(ac, pc)
  [] conjecture
  qed

% end(x, p ++ q) == end(end(x, p), q)
duty imply.11
  resume by induction on p
  <> basis nil
  [] basis nil
  <> step cons(ac, pc)
  [] step cons(ac, pc)
  [] conjecture
  qed

% end(end(x, p), back(x, p)) == x
duty imply.12
  resume by induction on p
  <> basis nil
  [] basis nil
  <> step cons(ac, pc)
  [] step cons(ac, pc)
  [] conjecture
  qed

% back(end(x, p), back(x, p)) == p
duty imply.13
  resume by induction on p
  <> basis nil
  [] basis nil
  <> step cons(ac, pc)
  [] step cons(ac, pc)
  [] conjecture
  qed

% isPath(x, p, y) => isPath(x, p ++ back(x, p), x)
duty imply.14
  resume by =>
  <> implication
    instantiate x by xc, p by pc, y by yc, q by back(xc, pc), z by xc in L6
    instantiate x by xc, p by pc, y by yc in L7
    normalize D1
  [] implication
  [] conjecture
  qed

% back(x1, x2) == back'(x1, x2)
duty convert.1
  resume by induction on x2
  <> basis nil
  [] basis nil
  <> step cons(ac, x2c)
    instantiate x by x1, z by ac, p by x2c in A31
  [] step cons(ac, x2c)
  [] conjecture
  qed
