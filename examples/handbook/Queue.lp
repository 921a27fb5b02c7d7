set box-checking on

% (x ++ y) ++ z == x ++ (y ++ z)
duty imply.1
  resume by induction on z
  <> basis empty
  [] basis empty
  <> step add(zc, ac)
  [] step add(zc, ac)
  [] conjecture
  qed

% empty ++ x == x
duty imply.2
  resume by induction on x
  <> basis empty
  [] basis empty
  <> step add(xc, ac)
  [] step add(xc, ac)
  [] conjecture
  qed

% x ++ empty == x
duty imply.3
  [] conjecture
  qed

% s(m) + n == s(m + n)
duty imply.4
  resume by induction on n
  <> basis 0
  [] basis 0
  <> step s(nc)
  [] step s(nc)
  [] conjecture
  qed

% add(q, e) ~= empty
duty imply.5
  resume by cases add(q, e) = empty
  <> case add(qc, ec) = empty
    critical-pairs A9 with H1
  [] case add(qc, ec) = empty
  <> case ~(add(qc, ec) = empty)
  [] case ~(add(qc, ec) = empty)
  [] conjecture
  qed

% isEmpty(q) == q = empty
duty imply.6
  resume by induction on q
  <> basis empty
  [] basis empty
  <> step add(qc, ac)
  [] step add(qc, ac)
  [] conjecture
  qed

% isEmpty(p ++ q) == isEmpty(p) /\ isEmpty(q)
duty imply.7
  resume by induction on q
  <> basis empty
  [] basis empty
  <> step add(qc, ac)
  [] step add(qc, ac)
  [] conjecture
  qed

% size(q) = 0 == isEmpty(q)
duty imply.8
  resume by induction on q
  <> basis empty
  [] basis empty
  <> step add(qc, ac)
  [] step add(qc, ac)
  [] conjecture
  qed

% first(add(empty, e)) == e
duty imply.9
  [] conjecture
  qed

% rest(add(empty, e)) == empty
duty imply.10
  [] conjecture
  qed

% rest(add(add(empty, d), e)) == add(empty, e)
duty imply.11
  [] conjecture
  qed

% (~ isEmpty(q)) => (first(q ++ p) = first(q))
duty imply.12
  resume by induction on p
  <> basis empty
  [] basis empty
  <> step add(pc, ac)
    resume by =>
    <> implication
      instantiate q by qc in H1
    [] implication
  [] step add(pc, ac)
  [] conjecture
  qed

% (~ isEmpty(q)) => (rest(q ++ p) = (rest(q) ++ p))
duty imply.13
  resume by induction on p
  <> basis empty
  [] basis empty
  <> step add(pc, ac)
    resume by =>
    <> implication
      instantiate q by qc in H1
    [] implication
  [] step add(pc, ac)
  [] conjecture
  qed

% (~ isEmpty(q)) => ((add(empty, first(q)) ++ rest(q)) = q)
duty imply.14
  resume by induction on q
  <> basis empty
  [] basis empty
  <> step add(qc, ac)
    % An empty qc is to be written as empty, not the other way round.
    register height qc > empty
    resume by cases isEmpty(qc)
    <> case isEmpty(qc)
    [] case isEmpty(qc)
    <> case ~(isEmpty(qc))
      normalize H1
    [] case ~(isEmpty(qc))
  [] step add(qc, ac)
  [] conjecture
  qed

% (~ isEmpty(q)) => (s(size(rest(q))) = size(q))
duty imply.15
  resume by induction on q
  <> basis empty
  [] basis empty
  <> step add(qc, ac)
    resume by cases qc = empty
    <> case qc = empty
    [] case qc = empty
    <> case ~(qc = empty)
      instantiate q by qc, e by ac in A11
      normalize H1
    [] case ~(qc = empty)
  [] step add(qc, ac)
  [] conjecture
  qed

% size(p ++ q) == size(p) + size(q)
duty imply.16
  resume by induction on q
  <> basis empty
  [] basis empty
  <> step add(qc, ac)
  [] step add(qc, ac)
  [] conjecture
  qed

% Q partitioned by isEmpty, first, rest
duty imply.17
  resume by cases isEmpty(lc)
  <> case isEmpty(lc)
    normalize H1
  [] case isEmpty(lc)
  <> case ~(isEmpty(lc))
    normalize H1
    instantiate q by lc in L14
    instantiate q by rc in L14
  [] case ~(isEmpty(lc))
  [] conjecture
  qed

% isEmpty(x1) == isEmpty'(x1)
duty convert.1
  resume by induction on x1
  <> basis empty
  [] basis empty
  <> step add(x1c, ac)
  [] step add(x1c, ac)
  [] conjecture
  qed

% size(x1) == size'(x1)
duty convert.2
  resume by induction on x1
  <> basis empty
  [] basis empty
  <> step add(x1c, ac)
  [] step add(x1c, ac)
  [] conjecture
  qed

% x1 ++ x2 == conv3'(x1, x2)
duty convert.3
  resume by induction on x2
  <> basis empty
  [] basis empty
  <> step add(x2c, ac)
  [] step add(x2c, ac)
  [] conjecture
  qed

% first(x1) == first'(x1)
duty convert.4
  resume by induction on x1
  <> basis empty
  [] basis empty
  <> step add(x1c, ac)
  [] step add(x1c, ac)
  [] conjecture
  qed

% rest(x1) == rest'(x1)
duty convert.5
  resume by induction on x1
  <> basis empty
  [] basis empty
  <> step add(x1c, ac)
  [] step add(x1c, ac)
  [] conjecture
  qed
