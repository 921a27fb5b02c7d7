set box-checking on

% (x + y) + z == x + (y + z)
duty imply.1
  resume by induction on z
  <> basis 0
  [] basis 0
  <> step s(zc)
  [] step s(zc)
  [] conjecture
  qed

% 0 + x == x
duty imply.2
  resume by induction on x
  <> basis 0
  [] basis 0
  <> step s(xc)
  [] step s(xc)
  [] conjecture
  qed

% x + 0 == x
duty imply.3
  [] conjecture
  qed

% x + y == y + x
duty imply.4
  resume by induction on x
  <> basis 0
  [] basis 0
  <> step s(xc)
    resume by induction on y
    <> basis 0
    [] basis 0
    <> step s(yc)
      instantiate y by s(yc) in H1
    [] step s(yc)
  [] step s(xc)
  [] conjecture
  qed

% (x \union y) \union z == x \union (y \union z)
duty imply.5
  resume by partition
  <> observer
  [] observer
  [] conjecture
  qed

% {} \union x == x
duty imply.6
  resume by partition
  <> observer
  [] observer
  [] conjecture
  qed

% x \union {} == x
duty imply.7
  resume by partition
  <> observer
  [] observer
  [] conjecture
  qed

% x \union y == y \union x
duty imply.8
  resume by partition
  <> observer
  [] observer
  [] conjecture
  qed

% s(m) + n == s(m + n)
duty imply.9
  resume by induction on n
  <> basis 0
  [] basis 0
  <> step s(nc)
  [] step s(nc)
  [] conjecture
  qed

% insert(e, a) ~= {}
duty imply.10
  resume by contradiction
  <> contradiction
    critical-pairs A12 with H1
    instantiate v1 by ec in D1
    instantiate n by count(ec, ac) in A2
  [] contradiction
  [] conjecture
  qed

% insert(d, insert(e, a)) == insert(e, insert(d, a))
duty imply.11
  resume by partition
  <> observer
    resume by cases ac = d
    <> case ac = dc
      resume by cases dc = e
      <> case dc = ec
      [] case dc = ec
      <> case ~(dc = ec)
      [] case ~(dc = ec)
    [] case ac = dc
    <> case ~(ac = dc)
    [] case ~(ac = dc)
  [] observer
  [] conjecture
  qed

% ~ (e \in {})
duty imply.12
  [] conjecture
  qed

% d \in insert(e, a) == (d = e) \/ (d \in a)
duty imply.13
  resume by cases d = e
  <> case dc = ec
  [] case dc = ec
  <> case ~(dc = ec)
  [] case ~(dc = ec)
  [] conjecture
  qed

% e \in (a \union b) == (e \in a) \/ (e \in b)
duty imply.14
  resume by induction on a
  <> basis {}
  [] basis {}
  <> step insert(ac, ac1)
    resume by cases e = ac
    <> case ec = ac
    [] case ec = ac
    <> case ~(ec = ac)
    [] case ~(ec = ac)
  [] step insert(ac, ac1)
  [] conjecture
  qed

% insert(e, a) \union b == insert(e, a \union b)
duty imply.15
  resume by partition
  <> observer
    resume by cases ac = e
    <> case ac = ec
    [] case ac = ec
    <> case ~(ac = ec)
    [] case ~(ac = ec)
  [] observer
  [] conjecture
  qed

% delete(e, insert(e, a)) == a
duty imply.16
  resume by partition
  <> observer
    resume by cases ac = e
    <> case ac = ec
    [] case ac = ec
    <> case ~(ac = ec)
    [] case ~(ac = ec)
  [] observer
  [] conjecture
  qed

% insert(e, a) = insert(e, b) == a = b
duty imply.17
  resume by cases a = b
  <> case ac = bc
  [] case ac = bc
  <> case ~(ac = bc)
    resume by contradiction
    <> contradiction
      critical-pairs L16 with H3
      normalize H2
    [] contradiction
  [] case ~(ac = bc)
  [] conjecture
  qed

% n ~= s(n)
duty imply.18
  resume by induction on n
  <> basis 0
  [] basis 0
  <> step s(nc)
  [] step s(nc)
  [] conjecture
  qed

% insert(e, a) ~= a
duty imply.19
  resume by contradiction
  <> contradiction
    critical-pairs A12 with H1
    instantiate v1 by ec in D1
    instantiate n by count(ec, ac) in L18
  [] contradiction
  [] conjecture
  qed

% (n ~= 0) => (s(pred(n)) = n)
duty imply.20
  resume by induction on n
  <> basis 0
  [] basis 0
  <> step s(nc)
  [] step s(nc)
  [] conjecture
  qed

% delete(e, {}) == {}
duty imply.21
  resume by partition
  <> observer
  [] observer
  [] conjecture
  qed

% (e \in a) => (insert(e, delete(e, a)) = a)
duty imply.22
  resume by =>
  <> implication
    resume by partition
    <> observer
      resume by cases ac1 = ec
      <> case ac1 = ec
        instantiate n by count(ec, ac) in L20
        normalize H1
        normalize D1
      [] case ac1 = ec
      <> case ~(ac1 = ec)
      [] case ~(ac1 = ec)
    [] observer
  [] implication
  [] conjecture
  qed

% (~ (e \in a)) => (delete(e, a) = a)
duty imply.23
  resume by =>
  <> implication
    resume by partition
    <> observer
      instantiate d by ac1, e by ec, a by ac in A15
      resume by cases ac1 = ec
      <> case ac1 = ec
        normalize H1
      [] case ac1 = ec
      <> case ~(ac1 = ec)
      [] case ~(ac1 = ec)
    [] observer
  [] implication
  [] conjecture
  qed

% (d ~= e) => (delete(d, insert(e, a)) = insert(e, delete(d, a)))
duty imply.24
  resume by =>
  <> implication
    resume by partition
    <> observer
      resume by cases ac = dc
      <> case ac = dc
        normalize H1
      [] case ac = dc
      <> case ~(ac = dc)
      [] case ~(ac = dc)
    [] observer
  [] implication
  [] conjecture
  qed

% pred(x1) == pred'(x1)
duty convert.1
  resume by induction on x1
  <> basis 0
  [] basis 0
  <> step s(x1c)
  [] step s(x1c)
  [] conjecture
  qed

% count(x1, x2) == count'(x1, x2)
duty convert.2
  resume by induction on x2
  <> basis {}
  [] basis {}
  <> step insert(ac, x2c)
  [] step insert(ac, x2c)
  [] conjecture
  qed

% x1 \in x2 == conv3'(x1, x2)
duty convert.3
  [] conjecture
  qed

% x1 \union x2 == conv4'(x1, x2)
duty convert.4
  resume by partition
  <> observer
    normalize A22
  [] observer
  [] conjecture
  qed

% delete(x1, x2) == delete'(x1, x2)
duty convert.5
  resume by partition
  <> observer
    normalize A23
  [] observer
  [] conjecture
  qed
