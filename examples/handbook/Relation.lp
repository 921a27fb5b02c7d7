set box-checking on

% r \union t == t \union r
duty imply.1
  resume by partition
  <> observer
    resume by cases holds(ac, r, ac1)
    <> case holds(ac, rc, ac1)
    [] case holds(ac, rc, ac1)
    <> case ~(holds(ac, rc, ac1))
    [] case ~(holds(ac, rc, ac1))
  [] observer
  [] conjecture
  qed

% (q \union r) \union t == q \union (r \union t)
duty imply.2
  resume by partition
  <> observer
    resume by cases holds(ac, q, ac1)
    <> case holds(ac, qc, ac1)
    [] case holds(ac, qc, ac1)
    <> case ~(holds(ac, qc, ac1))
    [] case ~(holds(ac, qc, ac1))
  [] observer
  [] conjecture
  qed

% r \inter t == t \inter r
duty imply.3
  resume by partition
  <> observer
    resume by cases holds(ac, r, ac1)
    <> case holds(ac, rc, ac1)
    [] case holds(ac, rc, ac1)
    <> case ~(holds(ac, rc, ac1))
    [] case ~(holds(ac, rc, ac1))
  [] observer
  [] conjecture
  qed

% (q \inter r) \inter t == q \inter (r \inter t)
duty imply.4
  resume by partition
  <> observer
    resume by cases holds(ac, q, ac1)
    <> case holds(ac, qc, ac1)
    [] case holds(ac, qc, ac1)
    <> case ~(holds(ac, qc, ac1))
    [] case ~(holds(ac, qc, ac1))
  [] observer
  [] conjecture
  qed

% q \inter (r \union t) == (q \inter r) \union (q \inter t)
duty imply.5
  resume by partition
  <> observer
    resume by cases holds(ac, q, ac1)
    <> case holds(ac, qc, ac1)
    [] case holds(ac, qc, ac1)
    <> case ~(holds(ac, qc, ac1))
    [] case ~(holds(ac, qc, ac1))
  [] observer
  [] conjecture
  qed

% r \union {} == r
duty imply.6
  resume by partition
  <> observer
  [] observer
  [] conjecture
  qed

% r \inter all == r
duty imply.7
  resume by partition
  <> observer
  [] observer
  [] conjecture
  qed

% r \inter (- r) == {}
duty imply.8
  resume by partition
  <> observer
  [] observer
  [] conjecture
  qed

% r \union (- r) == all
duty imply.9
  resume by partition
  <> observer
  [] observer
  [] conjecture
  qed

% - (- r) == r
duty imply.10
  resume by partition
  <> observer
  [] observer
  [] conjecture
  qed

% - (r \union t) == (- r) \inter (- t)
duty imply.11
  resume by partition
  <> observer
    resume by cases holds(ac, r, ac1)
    <> case holds(ac, rc, ac1)
    [] case holds(ac, rc, ac1)
    <> case ~(holds(ac, rc, ac1))
    [] case ~(holds(ac, rc, ac1))
  [] observer
  [] conjecture
  qed

% - {} == all
duty imply.12
  resume by partition
  <> observer
  [] observer
  [] conjecture
  qed

% converse(converse(r)) == r
duty imply.13
  resume by partition
  <> observer
    instantiate x by ac, r by converse(r), y by ac1 in A8
  [] observer
  [] conjecture
  qed

% converse(r \union t) == converse(r) \union converse(t)
duty imply.14
  resume by partition
  <> observer
    instantiate x by ac, y by ac1 in A8
  [] observer
  [] conjecture
  qed

% converse(r \inter t) == converse(r) \inter converse(t)
duty imply.15
  resume by partition
  <> observer
    instantiate x by ac, y by ac1 in A8
  [] observer
  [] conjecture
  qed

% converse(- r) == - converse(r)
duty imply.16
  resume by partition
  <> observer
    instantiate x by ac, y by ac1 in A8
  [] observer
  [] conjecture
  qed

% converse(same) == same
duty imply.17
  resume by partition
  <> observer
    resume by cases holds(ac, converse(same), ac1)
    <> case holds(ac, converse(same), ac1)
      instantiate x by ac, r by same, y by ac1 in A8
    [] case holds(ac, converse(same), ac1)
    <> case ~(holds(ac, converse(same), ac1))
      instantiate x by ac, r by same, y by ac1 in A8
    [] case ~(holds(ac, converse(same), ac1))
  [] observer
  [] conjecture
  qed

% converse(pair(x, y)) == pair(y, x)
duty imply.18
  resume by partition
  <> observer
    instantiate x by ac, r by pair(x, y), y by ac1 in A8
    resume by cases ac1 = x
    <> case ac1 = xc
    [] case ac1 = xc
    <> case ~(ac1 = xc)
    [] case ~(ac1 = xc)
  [] observer
  [] conjecture
  qed

% isSymmetric(r \union converse(r))
duty imply.19
  [] conjecture
  qed

% isSymmetric(same)
duty imply.20
  [] conjecture
  qed

% (isSymmetric(r) /\ isSymmetric(t)) => isSymmetric(r \inter t)
duty imply.21
  resume by =>
  <> implication
  [] implication
  [] conjecture
  qed

% isSymmetric(r) => isSymmetric(- r)
duty imply.22
  resume by =>
  <> implication
  [] implication
  [] conjecture
  qed

% isSymmetric(r) => (holds(x, r, y) = holds(y, r, x))
duty imply.23
  resume by =>
  <> implication
    critical-pairs A8 with H1
  [] implication
  [] conjecture
  qed

% x1 \union x2 == conv1'(x1, x2)
duty convert.1
  resume by partition
  <> observer
  [] observer
  [] conjecture
  qed

% x1 \inter x2 == conv2'(x1, x2)
duty convert.2
  resume by partition
  <> observer
  [] observer
  [] conjecture
  qed

% - x1 == conv3'(x1)
duty convert.3
  resume by partition
  <> observer
  [] observer
  [] conjecture
  qed

% converse(x1) == converse'(x1)
duty convert.4
  resume by partition
  <> observer
    instantiate x by ac, r by x1, y by ac1 in A17
  [] observer
  [] conjecture
  qed

% isSymmetric(x1) == isSymmetric'(x1)
duty convert.5
  [] conjecture
  qed

% {} == conv6'
duty convert.6
  resume by partition
  <> observer
  [] observer
  [] conjecture
  qed

% all == all'
duty convert.7
  resume by partition
  <> observer
  [] observer
  [] conjecture
  qed

% same == same'
duty convert.8
  resume by partition
  <> observer
  [] observer
  [] conjecture
  qed

% pair(x1, x2) == pair'(x1, x2)
duty convert.9
  resume by partition
  <> observer
  [] observer
  [] conjecture
  qed
