set box-checking on

% ((c <= d) /\ isAtMost(d, l)) => isAtMost(c, l)
duty imply.1
  resume by induction on l
  <> basis nil
  [] basis nil
  <> step cons(ac, lc)
    resume by =>
    <> implication
      instantiate x by cc, y by dc, z by ac in A2
      instantiate c by cc, d by dc in H1
    [] implication
  [] step cons(ac, lc)
  [] conjecture
  qed

% isAtMost(c, into(d, l)) == (c <= d) /\ isAtMost(c, l)
duty imply.2
  resume by induction on l
  <> basis nil
  [] basis nil
  <> step cons(ac, lc)
    resume by cases d <= ac
    <> case dc <= ac
    [] case dc <= ac
    <> case ~(dc <= ac)
      resume by cases c <= ac
      <> case cc <= ac
      [] case cc <= ac
      <> case ~(cc <= ac)
      [] case ~(cc <= ac)
    [] case ~(dc <= ac)
  [] step cons(ac, lc)
  [] conjecture
  qed

% isSorted(l) => isSorted(into(d, l))
duty imply.3
  resume by induction on l
  <> basis nil
  [] basis nil
  <> step cons(ac, lc)
    resume by =>
    <> implication
      normalize H1
      resume by cases d <= ac
      <> case dc <= ac
        instantiate c by dc, d by ac, l by lc in L1
      [] case dc <= ac
      <> case ~(dc <= ac)
        instantiate x by ac, y by dc in A4
      [] case ~(dc <= ac)
    [] implication
  [] step cons(ac, lc)
  [] conjecture
  qed

% insert(d, insert(e, a)) == insert(e, insert(d, a))
duty imply.4
  resume by partition
  <> observer
    resume by cases ac = d
    <> case ac = dc
      resume by cases dc = e
      <> case dc = ec
      [] case dc = ec
      <> case ~(dc = ec)
      [] case ~(dc = ec)
    [] case ac = dc
    <> case ~(ac = dc)
    [] case ~(ac = dc)
  [] observer
  [] conjecture
  qed

% bag(into(d, l)) == insert(d, bag(l))
duty imply.5
  resume by induction on l
  <> basis nil
  [] basis nil
  <> step cons(ac, lc)
    resume by cases d <= ac
    <> case dc <= ac
    [] case dc <= ac
    <> case ~(dc <= ac)
    [] case ~(dc <= ac)
  [] step cons(ac, lc)
  [] conjecture
  qed

% isAtMost(d, l) => (into(d, l) = cons(d, l))
duty imply.6
  resume by induction on l
  <> basis nil
  [] basis nil
  <> step cons(ac, lc)
    resume by =>
    <> implication
    [] implication
  [] step cons(ac, lc)
  [] conjecture
  qed

% isSorted(l) => (sort(l) = l)
duty imply.7
  resume by induction on l
  <> basis nil
  [] basis nil
  <> step cons(ac, lc)
    resume by =>
    <> implication
      normalize H1
      instantiate d by ac, l by lc in L6
    [] implication
  [] step cons(ac, lc)
  [] conjecture
  qed

% sorted(bag(l)) == sort(l)
duty imply.8
  resume by induction on l
  <> basis nil
  [] basis nil
  <> step cons(ac, lc)
  [] step cons(ac, lc)
  [] conjecture
  qed

% isPermutation(k, l) => (sort(k) = sort(l))
duty imply.9
  resume by =>
  <> implication
    instantiate l by kc in L8
    normalize D1
  [] implication
  [] conjecture
  qed

% ((isSorted(k) /\ isSorted(l)) /\ isPermutation(k, l)) => (k = l)
duty imply.10
  resume by =>
  <> implication
    instantiate k by kc, l by lc in L9
    instantiate l by kc in L7
    instantiate l by lc in L7
  [] implication
  [] conjecture
  qed

% isSorted(sorted(a))
duty imply.11
  resume by induction on a
  <> basis {}
  [] basis {}
  <> step insert(ac, ac1)
    instantiate d by ac, l by sorted(ac1) in L3
  [] step insert(ac, ac1)
  [] conjecture
  qed

% bag(sorted(a)) == a
duty imply.12
  resume by induction on a
  <> basis {}
  [] basis {}
  <> step insert(ac, ac1)
  [] step insert(ac, ac1)
  [] conjecture
  qed

% sorted(x1) == sorted'(x1)
duty convert.1
  resume by induction on x1
  <> basis {}
  [] basis {}
  <> step insert(ac, x1c)
  [] step insert(ac, x1c)
  [] conjecture
  qed
