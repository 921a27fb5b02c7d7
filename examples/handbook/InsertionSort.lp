set box-checking on

% ((c <= d) /\ isAtMost(d, l)) => isAtMost(c, l)
duty imply.1
  resume by induction on l
  <> basis nil
  [] basis nil
  <> step cons(ac, lc)
    resume by =>
    <> implication
      instantiate x by cc, y by dc, z by ac in A2
      instantiate c by cc, d by dc in H1
    [] implication
  [] step cons(ac, lc)
  [] conjecture
  qed

% isAtMost(c, into(d, l)) == (c <= d) /\ isAtMost(c, l)
duty imply.2
  resume by induction on l
  <> basis nil
  [] basis nil
  <> step cons(ac, lc)
    resume by cases d <= ac
    <> case dc <= ac
    [] case dc <= ac
    <> case ~(dc <= ac)
      resume by cases c <= ac
      <> case cc <= ac
      [] case cc <= ac
      <> case ~(cc <= ac)
      [] case ~(cc <= ac)
    [] case ~(dc <= ac)
  [] step cons(ac, lc)
  [] conjecture
  qed

% isSorted(l) => isSorted(into(d, l))
duty imply.3
  resume by induction on l
  <> basis nil
  [] basis nil
  <> step cons(ac, lc)
    resume by =>
    <> implication
      normalize H1
      resume by cases d <= ac
      <> case dc <= ac
        instantiate c by dc, d by ac, l by lc in L1
      [] case dc <= ac
      <> case ~(dc <= ac)
        instantiate x by ac, y by dc in A4
      [] case ~(dc <= ac)
    [] implication
  [] step cons(ac, lc)
  [] conjecture
  qed

% isSorted(sort(l))
duty imply.4
  resume by induction on l
  <> basis nil
  [] basis nil
  <> step cons(ac, lc)
    instantiate l by sort(lc), d by ac in L3
  [] step cons(ac, lc)
  [] conjecture
  qed

% insert(d, insert(e, a)) == insert(e, insert(d, a))
duty imply.5
  resume by partition
  <> observer
    resume by cases ac = d
    <> case ac = dc
      resume by cases dc = e
      <> case dc = ec
      [] case dc = ec
      <> case ~(dc = ec)
      [] case ~(dc = ec)
    [] case ac = dc
    <> case ~(ac = dc)
    [] case ~(ac = dc)
  [] observer
  [] conjecture
  qed

% bag(into(d, l)) == insert(d, bag(l))
duty imply.6
  resume by induction on l
  <> basis nil
  [] basis nil
  <> step cons(ac, lc)
    resume by cases d <= ac
    <> case dc <= ac
    [] case dc <= ac
    <> case ~(dc <= ac)
    [] case ~(dc <= ac)
  [] step cons(ac, lc)
  [] conjecture
  qed

% isPermutation(into(d, l), cons(d, l))
duty imply.7
  [] conjecture
  qed

% isPermutation(sort(l), l)
duty imply.8
  resume by induction on l
  <> basis nil
  [] basis nil
  <> step cons(ac, lc)
  [] step cons(ac, lc)
  [] conjecture
  qed

% isAtMost(d, l) => (into(d, l) = cons(d, l))
duty imply.9
  resume by induction on l
  <> basis nil
  [] basis nil
  <> step cons(ac, lc)
    resume by =>
    <> implication
    [] implication
  [] step cons(ac, lc)
  [] conjecture
  qed

% isSorted(l) => (sort(l) = l)
duty imply.10
  resume by induction on l
  <> basis nil
  [] basis nil
  <> step cons(ac, lc)
    resume by =>
    <> implication
      normalize H1
      instantiate d by ac, l by lc in L9
    [] implication
  [] step cons(ac, lc)
  [] conjecture
  qed

% sort(sort(l)) == sort(l)
duty imply.11
  instantiate l by sort(l) in L10
  [] conjecture
  qed

% sort(l) = l == isSorted(l)
duty imply.12
  resume by cases sort(l) = l
  <> case sort(lc) = lc
    critical-pairs L4 with H1
  [] case sort(lc) = lc
  <> case ~(sort(lc) = lc)
    instantiate l by lc in L10
  [] case ~(sort(lc) = lc)
  [] conjecture
  qed

% into(d, into(e, l)) == into(e, into(d, l))
duty imply.13
  resume by induction on l
  <> basis nil
    % Both are put into the empty list.
    resume by cases d <= e
    <> case dc <= ec
      resume by cases ec <= dc
      <> case ec <= dc
        instantiate x by dc, y by ec in A3
      [] case ec <= dc
      <> case ~(ec <= dc)
      [] case ~(ec <= dc)
    [] case dc <= ec
    <> case ~(dc <= ec)
      instantiate x by dc, y by ec in A4
    [] case ~(dc <= ec)
  [] basis nil
  <> step cons(ac, lc)
    % Both are put into a list that begins with ac.
    resume by cases e <= ac
    <> case ec1 <= ac
      resume by cases d <= ac
      <> case dc1 <= ac
        resume by cases dc1 <= ec1
        <> case dc1 <= ec1
          resume by cases ec1 <= dc1
          <> case ec1 <= dc1
            instantiate x by dc1, y by ec1 in A3
          [] case ec1 <= dc1
          <> case ~(ec1 <= dc1)
          [] case ~(ec1 <= dc1)
        [] case dc1 <= ec1
        <> case ~(dc1 <= ec1)
          instantiate x by dc1, y by ec1 in A4
        [] case ~(dc1 <= ec1)
      [] case dc1 <= ac
      <> case ~(dc1 <= ac)
        instantiate x by dc1, y by ec1, z by ac in A2
      [] case ~(dc1 <= ac)
    [] case ec1 <= ac
    <> case ~(ec1 <= ac)
      resume by cases d <= ac
      <> case dc2 <= ac
        instantiate x by ec1, y by dc2, z by ac in A2
      [] case dc2 <= ac
      <> case ~(dc2 <= ac)
        instantiate d by dc2, e by ec1 in H5
      [] case ~(dc2 <= ac)
    [] case ~(ec1 <= ac)
  [] step cons(ac, lc)
  [] conjecture
  qed

% sort(k ++ cons(e, l)) == into(e, sort(k ++ l))
duty imply.14
  resume by induction on k
  <> basis nil
  [] basis nil
  <> step cons(ac, kc)
  [] step cons(ac, kc)
  [] conjecture
  qed

% sort(k ++ l) == sort(l ++ k)
duty imply.15
  prove (l ++ nil) == l
    resume by induction on l
    <> basis nil
    [] basis nil
    <> step cons(ac, lc)
    [] step cons(ac, lc)
  [] lemma
  resume by induction on k
  <> basis nil
  [] basis nil
  <> step cons(ac1, kc)
    resume by contradiction
    <> contradiction
      instantiate l by lc1 in H2
      normalize H3
    [] contradiction
  [] step cons(ac1, kc)
  [] conjecture
  qed

% sort(reverse(l)) == sort(l)
duty imply.16
  prove (l ++ nil) == l
    resume by induction on l
    <> basis nil
    [] basis nil
    <> step cons(ac, lc)
    [] step cons(ac, lc)
  [] lemma
  resume by induction on l
  <> basis nil
  [] basis nil
  <> step cons(ac1, lc1)
  [] step cons(ac1, lc1)
  [] conjecture
  qed

% isAtMost(x1, x2) == isAtMost'(x1, x2)
duty convert.1
  resume by induction on x2
  <> basis nil
  [] basis nil
  <> step cons(ac, x2c)
  [] step cons(ac, x2c)
  [] conjecture
  qed

% isSorted(x1) == isSorted'(x1)
duty convert.2
  resume by induction on x1
  <> basis nil
  [] basis nil
  <> step cons(ac, x1c)
  [] step cons(ac, x1c)
  [] conjecture
  qed

% into(x1, x2) == into'(x1, x2)
duty convert.3
  resume by induction on x2
  <> basis nil
  [] basis nil
  <> step cons(ac, x2c)
  [] step cons(ac, x2c)
  [] conjecture
  qed

% sort(x1) == sort'(x1)
duty convert.4
  resume by induction on x1
  <> basis nil
  [] basis nil
  <> step cons(ac, x1c)
  [] step cons(ac, x1c)
  [] conjecture
  qed
