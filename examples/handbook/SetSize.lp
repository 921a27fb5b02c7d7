set box-checking on

% s(m) + n == s(m + n)
duty imply.1
  resume by induction on n
  <> basis 0
  [] basis 0
  <> step s(nc)
  [] step s(nc)
  [] conjecture
  qed

% 0 + n == n
duty imply.2
  resume by induction on n
  <> basis 0
  [] basis 0
  <> step s(nc)
  [] step s(nc)
  [] conjecture
  qed

% insert(e, a) ~= {}
duty imply.3
  resume by contradiction
  <> contradiction
    critical-pairs A4 with H1
    instantiate v1 by ec in D1
  [] contradiction
  [] conjecture
  qed

% size({e}) == 1
duty imply.4
  [] conjecture
  qed

% size(a) = 0 == a = {}
duty imply.5
  resume by induction on a
  <> basis {}
  [] basis {}
  <> step insert(ac, ac1)
    register height ac1 > {}
    resume by cases ac \in ac1
    <> case ac \in ac1
      resume by cases ac1 = {}
      <> case ac1 = {}
        normalize H2
      [] case ac1 = {}
      <> case ~(ac1 = {})
      [] case ~(ac1 = {})
    [] case ac \in ac1
    <> case ~(ac \in ac1)
    [] case ~(ac \in ac1)
  [] step insert(ac, ac1)
  [] conjecture
  qed

% (~ (e \in a)) => (size(insert(e, a)) = s(size(a)))
duty imply.6
  resume by =>
  <> implication
  [] implication
  [] conjecture
  qed

% {} \union a == a
duty imply.7
  resume by partition
  <> observer
  [] observer
  [] conjecture
  qed

% {} \inter b == {}
duty imply.8
  resume by partition
  <> observer
  [] observer
  [] conjecture
  qed

% insert(e, a) \union b == insert(e, a \union b)
duty imply.9
  resume by partition
  <> observer
    resume by cases ac = e
    <> case ac = ec
    [] case ac = ec
    <> case ~(ac = ec)
    [] case ~(ac = ec)
  [] observer
  [] conjecture
  qed

% insert(e, a) \inter b == if (e \in b) then insert(e, a \inter b) else (a \inter b)
duty imply.10
  resume by partition
  <> observer
    resume by cases ac = e
    <> case ac = ec
      resume by cases ec \in b
      <> case ec \in bc
      [] case ec \in bc
      <> case ~(ec \in bc)
      [] case ~(ec \in bc)
    [] case ac = ec
    <> case ~(ac = ec)
      resume by cases ec \in b
      <> case ec \in bc1
      [] case ec \in bc1
      <> case ~(ec \in bc1)
      [] case ~(ec \in bc1)
    [] case ~(ac = ec)
  [] observer
  [] conjecture
  qed

% size(a \union b) + size(a \inter b) == size(a) + size(b)
duty imply.11
  resume by induction on a
  <> basis {}
  [] basis {}
  <> step insert(ac, ac1)
    resume by cases ac \in ac1
    <> case ac \in ac1
      resume by cases ac \in b
      <> case ac \in bc
      [] case ac \in bc
      <> case ~(ac \in bc)
      [] case ~(ac \in bc)
    [] case ac \in ac1
    <> case ~(ac \in ac1)
      resume by cases ac \in b
      <> case ac \in bc1
      [] case ac \in bc1
      <> case ~(ac \in bc1)
      [] case ~(ac \in bc1)
    [] case ~(ac \in ac1)
  [] step insert(ac, ac1)
  [] conjecture
  qed

% size(x1) == size'(x1)
duty convert.1
  resume by induction on x1
  <> basis {}
  [] basis {}
  <> step insert(ac, x1c)
  [] step insert(ac, x1c)
  [] conjecture
  qed
