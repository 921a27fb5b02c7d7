set box-checking on

% isPermutation(x, x)
duty imply.1
  [] conjecture
  qed

% (isPermutation(x, z) /\ isPermutation(y, z)) => isPermutation(x, y)
duty imply.2
  resume by =>
  <> implication
  [] implication
  [] conjecture
  qed

% (x + y) + z == x + (y + z)
duty imply.3
  resume by induction on z
  <> basis 0
  [] basis 0
  <> step s(zc)
  [] step s(zc)
  [] conjecture
  qed

% 0 + x == x
duty imply.4
  resume by induction on x
  <> basis 0
  [] basis 0
  <> step s(xc)
  [] step s(xc)
  [] conjecture
  qed

% x + 0 == x
duty imply.5
  [] conjecture
  qed

% x + y == y + x
duty imply.6
  resume by induction on x
  <> basis 0
  [] basis 0
  <> step s(xc)
    resume by induction on y
    <> basis 0
    [] basis 0
    <> step s(yc)
      instantiate y by s(yc) in H1
    [] step s(yc)
  [] step s(xc)
  [] conjecture
  qed

% (x \union y) \union z == x \union (y \union z)
duty imply.7
  resume by partition
  <> observer
  [] observer
  [] conjecture
  qed

% {} \union x == x
duty imply.8
  resume by partition
  <> observer
  [] observer
  [] conjecture
  qed

% x \union {} == x
duty imply.9
  resume by partition
  <> observer
  [] observer
  [] conjecture
  qed

% x \union y == y \union x
duty imply.10
  resume by partition
  <> observer
  [] observer
  [] conjecture
  qed

% s(m) + n == s(m + n)
duty imply.11
  resume by induction on n
  <> basis 0
  [] basis 0
  <> step s(nc)
  [] step s(nc)
  [] conjecture
  qed

% insert(e, a) \union b == insert(e, a \union b)
duty imply.12
  resume by partition
  <> observer
    resume by cases ac = e
    <> case ac = ec
    [] case ac = ec
    <> case ~(ac = ec)
    [] case ~(ac = ec)
  [] observer
  [] conjecture
  qed

% insert(d, insert(e, a)) == insert(e, insert(d, a))
duty imply.13
  resume by partition
  <> observer
    resume by cases ac = d
    <> case ac = dc
      resume by cases dc = e
      <> case dc = ec
      [] case dc = ec
      <> case ~(dc = ec)
      [] case ~(dc = ec)
    [] case ac = dc
    <> case ~(ac = dc)
    [] case ~(ac = dc)
  [] observer
  [] conjecture
  qed

% delete(e, insert(e, a)) == a
duty imply.14
  resume by partition
  <> observer
    resume by cases ac = e
    <> case ac = ec
    [] case ac = ec
    <> case ~(ac = ec)
    [] case ~(ac = ec)
  [] observer
  [] conjecture
  qed

% insert(e, a) = insert(e, b) == a = b
duty imply.15
  resume by cases a = b
  <> case ac = bc
  [] case ac = bc
  <> case ~(ac = bc)
    resume by contradiction
    <> contradiction
      critical-pairs L14 with H3
      normalize H2
    [] contradiction
  [] case ~(ac = bc)
  [] conjecture
  qed

% bag(k ++ l) == bag(k) \union bag(l)
duty imply.16
  resume by induction on k
  <> basis nil
  [] basis nil
  <> step cons(ac, kc)
  [] step cons(ac, kc)
  [] conjecture
  qed

% bag(reverse(l)) == bag(l)
duty imply.17
  resume by induction on l
  <> basis nil
  [] basis nil
  <> step cons(ac, lc)
    resume by partition
    <> observer
      resume by cases ac1 = ac
      <> case ac1 = ac
      [] case ac1 = ac
      <> case ~(ac1 = ac)
      [] case ~(ac1 = ac)
    [] observer
  [] step cons(ac, lc)
  [] conjecture
  qed

% isPermutation(k ++ l, l ++ k)
duty imply.18
  [] conjecture
  qed

% isPermutation(reverse(l), l)
duty imply.19
  [] conjecture
  qed

% isPermutation(cons(d, cons(e, l)), cons(e, cons(d, l)))
duty imply.20
  [] conjecture
  qed

% isPermutation(cons(e, k), cons(e, l)) == isPermutation(k, l)
duty imply.21
  [] conjecture
  qed

% isPermutation(k ++ cons(e, l), cons(e, k ++ l))
duty imply.22
  resume by induction on k
  <> basis nil
  [] basis nil
  <> step cons(ac, kc)
  [] step cons(ac, kc)
  [] conjecture
  qed

% isPermutation(k, l) => isPermutation(k ++ j, l ++ j)
duty imply.23
  resume by =>
  <> implication
  [] implication
  [] conjecture
  qed

% bag(x1) == bag'(x1)
duty convert.1
  resume by induction on x1
  <> basis nil
  [] basis nil
  <> step cons(ac, x1c)
  [] step cons(ac, x1c)
  [] conjecture
  qed

% isPermutation(x1, x2) == isPermutation'(x1, x2)
duty convert.2
  [] conjecture
  qed
