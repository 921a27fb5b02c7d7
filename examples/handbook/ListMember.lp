set box-checking on

% e \in single(d) == e = d
duty imply.1
  [] conjecture
  qed

% e \in (k ++ l) == (e \in k) \/ (e \in l)
duty imply.2
  resume by induction on k
  <> basis nil
  [] basis nil
  <> step cons(ac, kc)
    resume by cases e = ac
    <> case ec = ac
    [] case ec = ac
    <> case ~(ec = ac)
    [] case ~(ec = ac)
  [] step cons(ac, kc)
  [] conjecture
  qed

% e \in reverse(l) == e \in l
duty imply.3
  resume by induction on l
  <> basis nil
  [] basis nil
  <> step cons(ac, lc)
    resume by cases e \in lc
    <> case ec \in lc
    [] case ec \in lc
    <> case ~(ec \in lc)
    [] case ~(ec \in lc)
  [] step cons(ac, lc)
  [] conjecture
  qed

% e \in onto(k, l) == (e \in k) \/ (e \in l)
duty imply.4
  resume by induction on k
  <> basis nil
  [] basis nil
  <> step cons(ac, kc)
    resume by cases e \in kc
    <> case ec \in kc
    [] case ec \in kc
    <> case ~(ec \in kc)
    [] case ~(ec \in kc)
  [] step cons(ac, kc)
  [] conjecture
  qed

% ~ (d \in without(l, d))
duty imply.5
  resume by induction on l
  <> basis nil
  [] basis nil
  <> step cons(ac, lc)
    resume by cases ac = d
    <> case ac = dc
    [] case ac = dc
    <> case ~(ac = dc)
    [] case ~(ac = dc)
  [] step cons(ac, lc)
  [] conjecture
  qed

% c \in without(l, d) == (c \in l) /\ (c ~= d)
duty imply.6
  resume by induction on l
  <> basis nil
  [] basis nil
  <> step cons(ac, lc)
    resume by cases ac = d
    <> case ac = dc
      resume by cases c \in lc
      <> case cc \in lc
      [] case cc \in lc
      <> case ~(cc \in lc)
      [] case ~(cc \in lc)
    [] case ac = dc
    <> case ~(ac = dc)
      resume by cases c = ac
      <> case cc1 = ac
        normalize H5
      [] case cc1 = ac
      <> case ~(cc1 = ac)
      [] case ~(cc1 = ac)
    [] case ~(ac = dc)
  [] step cons(ac, lc)
  [] conjecture
  qed

% (~ (d \in l)) => (without(l, d) = l)
duty imply.7
  resume by induction on l
  <> basis nil
  [] basis nil
  <> step cons(ac, lc)
    resume by =>
    <> implication
      instantiate d by dc in H1
    [] implication
  [] step cons(ac, lc)
  [] conjecture
  qed

% without(without(l, d), d) == without(l, d)
duty imply.8
  instantiate l by without(l, d) in L7
  [] conjecture
  qed

% without(without(l, d), c) == without(without(l, c), d)
duty imply.9
  resume by induction on l
  <> basis nil
  [] basis nil
  <> step cons(ac, lc)
    resume by cases ac = d
    <> case ac = dc
      resume by cases dc = c
      <> case dc = cc
      [] case dc = cc
      <> case ~(dc = cc)
      [] case ~(dc = cc)
    [] case ac = dc
    <> case ~(ac = dc)
      resume by cases ac = c
      <> case ac = cc1
      [] case ac = cc1
      <> case ~(ac = cc1)
        instantiate d by dc, c by cc1 in H1
      [] case ~(ac = cc1)
    [] case ~(ac = dc)
  [] step cons(ac, lc)
  [] conjecture
  qed

% without(k ++ l, d) == without(k, d) ++ without(l, d)
duty imply.10
  resume by induction on k
  <> basis nil
  [] basis nil
  <> step cons(ac, kc)
    resume by cases ac = d
    <> case ac = dc
    [] case ac = dc
    <> case ~(ac = dc)
    [] case ~(ac = dc)
  [] step cons(ac, kc)
  [] conjecture
  qed

% ((k \subseteq l) /\ (e \in k)) => (e \in l)
duty imply.11
  resume by induction on k
  <> basis nil
  [] basis nil
  <> step cons(ac, kc)
    resume by contradiction
    <> contradiction
      instantiate l by lc, e by ec in H1
      normalize H2.3
      normalize H2
    [] contradiction
  [] step cons(ac, kc)
  [] conjecture
  qed

% (k \subseteq l) => (k \subseteq cons(e, l))
duty imply.12
  resume by induction on k
  <> basis nil
  [] basis nil
  <> step cons(ac, kc)
    resume by =>
    <> implication
      instantiate l by lc in H1
    [] implication
  [] step cons(ac, kc)
  [] conjecture
  qed

% l \subseteq l
duty imply.13
  resume by induction on l
  <> basis nil
  [] basis nil
  <> step cons(ac, lc)
    instantiate k by lc, l by lc, e by ac in L12
  [] step cons(ac, lc)
  [] conjecture
  qed

% k \subseteq (k ++ l)
duty imply.14
  resume by induction on k
  <> basis nil
  [] basis nil
  <> step cons(ac, kc)
    instantiate k by kc, l by kc ++ l, e by ac in L12
  [] step cons(ac, kc)
  [] conjecture
  qed

% (k ++ l) \subseteq j == (k \subseteq j) /\ (l \subseteq j)
duty imply.15
  resume by induction on k
  <> basis nil
  [] basis nil
  <> step cons(ac, kc)
    resume by cases ac \in j
    <> case ac \in jc
    [] case ac \in jc
    <> case ~(ac \in jc)
    [] case ~(ac \in jc)
  [] step cons(ac, kc)
  [] conjecture
  qed

% ((j \subseteq k) /\ (k \subseteq l)) => (j \subseteq l)
duty imply.16
  resume by induction on j
  <> basis nil
  [] basis nil
  <> step cons(ac, jc)
    resume by =>
    <> implication
      instantiate k by kc, l by lc, e by ac in L11
      instantiate k by kc, l by lc in H1
    [] implication
  [] step cons(ac, jc)
  [] conjecture
  qed

% x1 \in x2 == conv1'(x1, x2)
duty convert.1
  resume by induction on x2
  <> basis nil
  [] basis nil
  <> step cons(ac, x2c)
  [] step cons(ac, x2c)
  [] conjecture
  qed

% without(x1, x2) == without'(x1, x2)
duty convert.2
  resume by induction on x1
  <> basis nil
  [] basis nil
  <> step cons(ac, x1c)
  [] step cons(ac, x1c)
  [] conjecture
  qed

% x1 \subseteq x2 == conv3'(x1, x2)
duty convert.3
  resume by induction on x1
  <> basis nil
  [] basis nil
  <> step cons(ac, x1c)
  [] step cons(ac, x1c)
  [] conjecture
  qed
