set box-checking on

% (x ++ y) ++ z == x ++ (y ++ z)
duty imply.1
  resume by induction on x
  <> basis nil
  [] basis nil
  <> step cons(ac, xc)
  [] step cons(ac, xc)
  [] conjecture
  qed

% nil ++ x == x
duty imply.2
  [] conjecture
  qed

% x ++ nil == x
duty imply.3
  resume by induction on x
  <> basis nil
  [] basis nil
  <> step cons(ac, xc)
  [] step cons(ac, xc)
  [] conjecture
  qed

% s(m) + n == s(m + n)
duty imply.4
  resume by induction on n
  <> basis 0
  [] basis 0
  <> step s(nc)
  [] step s(nc)
  [] conjecture
  qed

% m + n == n + m
duty imply.5
  resume by induction on m
  <> basis 0
    resume by induction on n
    <> basis 0
    [] basis 0
    <> step s(nc)
    [] step s(nc)
  [] basis 0
  <> step s(mc)
  [] step s(mc)
  [] conjecture
  qed

% reverse(k ++ l) == reverse(l) ++ reverse(k)
duty imply.6
  resume by induction on k
  <> basis nil
  [] basis nil
  <> step cons(ac, kc)
  [] step cons(ac, kc)
  [] conjecture
  qed

% length(k ++ l) == length(k) + length(l)
duty imply.7
  resume by induction on k
  <> basis nil
    instantiate m by 0, n by length(l) in L5
  [] basis nil
  <> step cons(ac, kc)
  [] step cons(ac, kc)
  [] conjecture
  qed

% inorder(mirror(t)) == reverse(inorder(t))
duty imply.8
  resume by induction on t
  <> basis leaf
  [] basis leaf
  <> step node(tc, ac, tc1)
  [] step node(tc, ac, tc1)
  [] conjecture
  qed

% preorder(mirror(t)) == reverse(postorder(t))
duty imply.9
  resume by induction on t
  <> basis leaf
  [] basis leaf
  <> step node(tc, ac, tc1)
  [] step node(tc, ac, tc1)
  [] conjecture
  qed

% inorderOnto(t, l) == inorder(t) ++ l
duty imply.10
  resume by induction on t
  <> basis leaf
  [] basis leaf
  <> step node(tc, ac, tc1)
  [] step node(tc, ac, tc1)
  [] conjecture
  qed

% length(inorder(t)) == size(t)
duty imply.11
  resume by induction on t
  <> basis leaf
  [] basis leaf
  <> step node(tc, ac, tc1)
  [] step node(tc, ac, tc1)
  [] conjecture
  qed

% length(preorder(t)) == size(t)
duty imply.12
  resume by induction on t
  <> basis leaf
  [] basis leaf
  <> step node(tc, ac, tc1)
  [] step node(tc, ac, tc1)
  [] conjecture
  qed

% length(postorder(t)) == size(t)
duty imply.13
  resume by induction on t
  <> basis leaf
  [] basis leaf
  <> step node(tc, ac, tc1)
  [] step node(tc, ac, tc1)
  [] conjecture
  qed

% isEmpty(k ++ l) == isEmpty(k) /\ isEmpty(l)
duty imply.14
  resume by induction on k
  <> basis nil
  [] basis nil
  <> step cons(ac, kc)
  [] step cons(ac, kc)
  [] conjecture
  qed

% isEmpty(inorder(t)) == isLeaf(t)
duty imply.15
  resume by induction on t
  <> basis leaf
  [] basis leaf
  <> step node(tc, ac, tc1)
  [] step node(tc, ac, tc1)
  [] conjecture
  qed

% inorder(x1) == inorder'(x1)
duty convert.1
  resume by induction on x1
  <> basis leaf
  [] basis leaf
  <> step node(x1c, ac, x1c1)
  [] step node(x1c, ac, x1c1)
  [] conjecture
  qed

% preorder(x1) == preorder'(x1)
duty convert.2
  resume by induction on x1
  <> basis leaf
  [] basis leaf
  <> step node(x1c, ac, x1c1)
  [] step node(x1c, ac, x1c1)
  [] conjecture
  qed

% postorder(x1) == postorder'(x1)
duty convert.3
  resume by induction on x1
  <> basis leaf
  [] basis leaf
  <> step node(x1c, ac, x1c1)
  [] step node(x1c, ac, x1c1)
  [] conjecture
  qed

% inorderOnto(x1, x2) == inorderOnto'(x1, x2)
duty convert.4
  resume by induction on x1
  <> basis leaf
  [] basis leaf
  <> step node(x1c, ac, x1c1)
  [] step node(x1c, ac, x1c1)
  [] conjecture
  qed
