set box-checking on

% s(m) + n == s(m + n)
duty imply.1
  resume by induction on n
  <> basis 0
  [] basis 0
  <> step s(nc)
  [] step s(nc)
  [] conjecture
  qed

% m + n == n + m
duty imply.2
  resume by induction on m
  <> basis 0
    resume by induction on n
    <> basis 0
    [] basis 0
    <> step s(nc)
    [] step s(nc)
  [] basis 0
  <> step s(mc)
  [] step s(mc)
  [] conjecture
  qed

% leaf ~= node(t, e, u)
duty imply.3
  resume by cases leaf = node(t, e, u)
  <> case leaf = node(tc, ec, uc)
    critical-pairs A15 with H1
  [] case leaf = node(tc, ec, uc)
  <> case ~(leaf = node(tc, ec, uc))
  [] case ~(leaf = node(tc, ec, uc))
  [] conjecture
  qed

% node(t, e, u) = node(t1, e1, u1) == ((t = t1) /\ (e = e1)) /\ (u = u1)
duty imply.4
  resume by cases node(t, e, u) = node(t1, e1, u1)
  <> case node(tc, ec, uc) = node(t1c, e1c, u1c)
    critical-pairs A16 with H1
    critical-pairs A18 with H1
    critical-pairs A17 with H1
  [] case node(tc, ec, uc) = node(t1c, e1c, u1c)
  <> case ~(node(tc, ec, uc) = node(t1c, e1c, u1c))
    normalize H2
    resume by contradiction
    <> contradiction
      normalize D4
    [] contradiction
  [] case ~(node(tc, ec, uc) = node(t1c, e1c, u1c))
  [] conjecture
  qed

% isLeaf(t) == t = leaf
duty imply.5
  resume by induction on t
  <> basis leaf
  [] basis leaf
  <> step node(tc, ac, tc1)
  [] step node(tc, ac, tc1)
  [] conjecture
  qed

% (~ isLeaf(t)) => (node(left(t), root(t), right(t)) = t)
duty imply.6
  resume by induction on t
  <> basis leaf
  [] basis leaf
  <> step node(tc, ac, tc1)
  [] step node(tc, ac, tc1)
  [] conjecture
  qed

% mirror(mirror(t)) == t
duty imply.7
  resume by induction on t
  <> basis leaf
  [] basis leaf
  <> step node(tc, ac, tc1)
  [] step node(tc, ac, tc1)
  [] conjecture
  qed

% mirror(t) = mirror(u) == t = u
duty imply.8
  resume by cases mirror(t) = mirror(u)
  <> case mirror(tc) = mirror(uc)
    critical-pairs L7 with H1
  [] case mirror(tc) = mirror(uc)
  <> case ~(mirror(tc) = mirror(uc))
    resume by cases tc = uc
    <> case tc = uc
      normalize H2
    [] case tc = uc
    <> case ~(tc = uc)
    [] case ~(tc = uc)
  [] case ~(mirror(tc) = mirror(uc))
  [] conjecture
  qed

% size(mirror(t)) == size(t)
duty imply.9
  resume by induction on t
  <> basis leaf
  [] basis leaf
  <> step node(tc, ac, tc1)
  [] step node(tc, ac, tc1)
  [] conjecture
  qed

% leaves(mirror(t)) == leaves(t)
duty imply.10
  resume by induction on t
  <> basis leaf
  [] basis leaf
  <> step node(tc, ac, tc1)
  [] step node(tc, ac, tc1)
  [] conjecture
  qed

% leaves(t) == s(size(t))
duty imply.11
  resume by induction on t
  <> basis leaf
  [] basis leaf
  <> step node(tc, ac, tc1)
  [] step node(tc, ac, tc1)
  [] conjecture
  qed

% size(t) = 0 == isLeaf(t)
duty imply.12
  resume by induction on t
  <> basis leaf
  [] basis leaf
  <> step node(tc, ac, tc1)
  [] step node(tc, ac, tc1)
  [] conjecture
  qed

% T partitioned by isLeaf, left, root, right
duty imply.13
  resume by cases isLeaf(lc)
  <> case isLeaf(lc)
    normalize H1
  [] case isLeaf(lc)
  <> case ~(isLeaf(lc))
    normalize H1
    instantiate t by lc in L6
    instantiate t by rc in L6
  [] case ~(isLeaf(lc))
  [] conjecture
  qed

% mirror(x1) == mirror'(x1)
duty convert.1
  resume by induction on x1
  <> basis leaf
  [] basis leaf
  <> step node(x1c, ac, x1c1)
  [] step node(x1c, ac, x1c1)
  [] conjecture
  qed

% size(x1) == size'(x1)
duty convert.2
  resume by induction on x1
  <> basis leaf
  [] basis leaf
  <> step node(x1c, ac, x1c1)
  [] step node(x1c, ac, x1c1)
  [] conjecture
  qed

% leaves(x1) == leaves'(x1)
duty convert.3
  resume by induction on x1
  <> basis leaf
  [] basis leaf
  <> step node(x1c, ac, x1c1)
  [] step node(x1c, ac, x1c1)
  [] conjecture
  qed

% isLeaf(x1) == isLeaf'(x1)
duty convert.4
  resume by induction on x1
  <> basis leaf
  [] basis leaf
  <> step node(x1c, ac, x1c1)
  [] step node(x1c, ac, x1c1)
  [] conjecture
  qed

% left(x1) == left'(x1)
duty convert.5
  resume by induction on x1
  <> basis leaf
  [] basis leaf
  <> step node(x1c, ac, x1c1)
  [] step node(x1c, ac, x1c1)
  [] conjecture
  qed

% root(x1) == root'(x1)
duty convert.6
  resume by induction on x1
  <> basis leaf
  [] basis leaf
  <> step node(x1c, ac, x1c1)
  [] step node(x1c, ac, x1c1)
  [] conjecture
  qed

% right(x1) == right'(x1)
duty convert.7
  resume by induction on x1
  <> basis leaf
  [] basis leaf
  <> step node(x1c, ac, x1c1)
  [] step node(x1c, ac, x1c1)
  [] conjecture
  qed
