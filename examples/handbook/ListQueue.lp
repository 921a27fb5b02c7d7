set box-checking on

% (x ++ y) ++ z == x ++ (y ++ z)
duty imply.1
  resume by induction on x
  <> basis nil
  [] basis nil
  <> step cons(ac, xc)
  [] step cons(ac, xc)
  [] conjecture
  qed

% nil ++ x == x
duty imply.2
  [] conjecture
  qed

% x ++ nil == x
duty imply.3
  resume by induction on x
  <> basis nil
  [] basis nil
  <> step cons(ac, xc)
  [] step cons(ac, xc)
  [] conjecture
  qed

% isEmpty(k ++ l) == isEmpty(k) /\ isEmpty(l)
duty imply.4
  resume by induction on k
  <> basis nil
  [] basis nil
  <> step cons(ac, kc)
  [] step cons(ac, kc)
  [] conjecture
  qed

% isEmpty(l) => (l = nil)
duty imply.5
  resume by induction on l
  <> basis nil
  [] basis nil
  <> step cons(ac, lc)
  [] step cons(ac, lc)
  [] conjecture
  qed

% meaning(empty) == nil
duty imply.6
  [] conjecture
  qed

% meaning(add(q, e)) == meaning(q) ++ single(e)
duty imply.7
  [] conjecture
  qed

% meaning(turn(q)) == meaning(q)
duty imply.8
  resume by cases isEmpty(q.front)
  <> case isEmpty(qc.front)
    instantiate l by qc.front in L5
  [] case isEmpty(qc.front)
  <> case ~(isEmpty(qc.front))
  [] case ~(isEmpty(qc.front))
  [] conjecture
  qed

% isEmpty(reverse(l)) == isEmpty(l)
duty imply.9
  resume by induction on l
  <> basis nil
  [] basis nil
  <> step cons(ac, lc)
  [] step cons(ac, lc)
  [] conjecture
  qed

% isEmpty(q) == isEmpty(meaning(q))
duty imply.10
  [] conjecture
  qed

% (~ isEmpty(q)) => (~ isEmpty(turn(q).front))
duty imply.11
  resume by cases isEmpty(q.front)
  <> case isEmpty(qc.front)
  [] case isEmpty(qc.front)
  <> case ~(isEmpty(qc.front))
  [] case ~(isEmpty(qc.front))
  [] conjecture
  qed

% (~ isEmpty(k)) => (head(k ++ l) = head(k))
duty imply.12
  resume by induction on k
  <> basis nil
  [] basis nil
  <> step cons(ac, kc)
  [] step cons(ac, kc)
  [] conjecture
  qed

% (~ isEmpty(k)) => (tail(k ++ l) = (tail(k) ++ l))
duty imply.13
  resume by induction on k
  <> basis nil
  [] basis nil
  <> step cons(ac, kc)
  [] step cons(ac, kc)
  [] conjecture
  qed

% (~ isEmpty(q)) => (first(q) = head(meaning(q)))
duty imply.14
  resume by =>
  <> implication
    resume by cases isEmpty(qc.front)
    <> case isEmpty(qc.front)
      instantiate l by qc.front in L5
    [] case isEmpty(qc.front)
    <> case ~(isEmpty(qc.front))
      instantiate k by qc.front, l by reverse(qc.back) in L12
    [] case ~(isEmpty(qc.front))
  [] implication
  [] conjecture
  qed

% (~ isEmpty(q)) => (meaning(rest(q)) = tail(meaning(q)))
duty imply.15
  resume by =>
  <> implication
    resume by cases isEmpty(qc.front)
    <> case isEmpty(qc.front)
      instantiate l by qc.front in L5
    [] case isEmpty(qc.front)
    <> case ~(isEmpty(qc.front))
      instantiate k by qc.front, l by reverse(qc.back) in L13
    [] case ~(isEmpty(qc.front))
  [] implication
  [] conjecture
  qed

% meaning(x1) == meaning'(x1)
duty convert.1
  [] conjecture
  qed

% add(x1, x2) == add'(x1, x2)
duty convert.2
  [] conjecture
  qed

% isEmpty(x1) == isEmpty'(x1)
duty convert.3
  [] conjecture
  qed
