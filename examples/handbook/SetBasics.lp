set box-checking on

% insert(e, a) ~= {}
duty imply.1
  resume by contradiction
  <> contradiction
    critical-pairs A4 with H1
    instantiate v1 by ec in D1
  [] contradiction
  [] conjecture
  qed

% insert(e, insert(e, a)) == insert(e, a)
duty imply.2
  resume by partition
  <> observer
    resume by cases ac = e
    <> case ac = ec
    [] case ac = ec
    <> case ~(ac = ec)
    [] case ~(ac = ec)
  [] observer
  [] conjecture
  qed

% insert(d, insert(e, a)) == insert(e, insert(d, a))
duty imply.3
  resume by partition
  <> observer
    resume by cases ac = d
    <> case ac = dc
    [] case ac = dc
    <> case ~(ac = dc)
    [] case ~(ac = dc)
  [] observer
  [] conjecture
  qed

% (e \in a) => (insert(e, a) = a)
duty imply.4
  resume by =>
  <> implication
    resume by partition
    <> observer
      resume by cases ac1 = ec
      <> case ac1 = ec
        normalize H1
      [] case ac1 = ec
      <> case ~(ac1 = ec)
      [] case ~(ac1 = ec)
    [] observer
  [] implication
  [] conjecture
  qed

% (insert(e, a) = a) => (e \in a)
duty imply.5
  resume by =>
  <> implication
    critical-pairs A4 with H1
    instantiate v1 by ec in D1
  [] implication
  [] conjecture
  qed

% d \in {e} == d = e
duty imply.6
  [] conjecture
  qed

% {d} = {e} == d = e
duty imply.7
  resume by cases d = e
  <> case dc = ec
  [] case dc = ec
  <> case ~(dc = ec)
    resume by contradiction
    <> contradiction
      critical-pairs A4 with H3
      instantiate v1 by dc in D1
    [] contradiction
  [] case ~(dc = ec)
  [] conjecture
  qed

% ~ (e \in delete(e, a))
duty imply.8
  [] conjecture
  qed

% delete(e, {}) == {}
duty imply.9
  resume by partition
  <> observer
  [] observer
  [] conjecture
  qed

% delete(e, insert(e, a)) == delete(e, a)
duty imply.10
  resume by partition
  <> observer
    resume by cases ac = e
    <> case ac = ec
    [] case ac = ec
    <> case ~(ac = ec)
    [] case ~(ac = ec)
  [] observer
  [] conjecture
  qed

% delete(d, insert(e, a)) == if (d = e) then delete(d, a) else insert(e, delete(d, a))
duty imply.11
  resume by cases d = e
  <> case dc = ec
  [] case dc = ec
  <> case ~(dc = ec)
    resume by partition
    <> observer
      resume by cases ac = dc
      <> case ac = dc
        normalize H2
      [] case ac = dc
      <> case ~(ac = dc)
      [] case ~(ac = dc)
    [] observer
  [] case ~(dc = ec)
  [] conjecture
  qed

% delete(d, delete(e, a)) == delete(e, delete(d, a))
duty imply.12
  resume by partition
  <> observer
    resume by cases ac = d
    <> case ac = dc
    [] case ac = dc
    <> case ~(ac = dc)
    [] case ~(ac = dc)
  [] observer
  [] conjecture
  qed

% (~ (e \in a)) => (delete(e, a) = a)
duty imply.13
  resume by =>
  <> implication
    resume by partition
    <> observer
      resume by cases ac1 = ec
      <> case ac1 = ec
        normalize H1
      [] case ac1 = ec
      <> case ~(ac1 = ec)
      [] case ~(ac1 = ec)
    [] observer
  [] implication
  [] conjecture
  qed

% (e \in a) => (insert(e, delete(e, a)) = a)
duty imply.14
  resume by =>
  <> implication
    resume by partition
    <> observer
      resume by cases ac1 = ec
      <> case ac1 = ec
        normalize H1
      [] case ac1 = ec
      <> case ~(ac1 = ec)
      [] case ~(ac1 = ec)
    [] observer
  [] implication
  [] conjecture
  qed

% (~ (e \in a)) => (delete(e, insert(e, a)) = a)
duty imply.15
  [] conjecture
  qed

% x1 \in x2 == conv1'(x1, x2)
duty convert.1
  resume by induction on x2
  <> basis {}
  [] basis {}
  <> step insert(ac, x2c)
  [] step insert(ac, x2c)
  [] conjecture
  qed

% {x1} == conv2'(x1)
duty convert.2
  [] conjecture
  qed

% delete(x1, x2) == delete'(x1, x2)
duty convert.3
  resume by partition
  <> observer
    normalize A11
  [] observer
  [] conjecture
  qed
