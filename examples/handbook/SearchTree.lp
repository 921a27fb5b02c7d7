set box-checking on

% d \in insert(e, t) == (d = e) \/ (d \in t)
duty imply.1
  resume by induction on t
  <> basis leaf
  [] basis leaf
  <> step node(tc, ac, tc1)
    resume by cases e = ac
    <> case ec = ac
      resume by cases d = ec
      <> case dc = ec
      [] case dc = ec
      <> case ~(dc = ec)
      [] case ~(dc = ec)
    [] case ec = ac
    <> case ~(ec = ac)
      resume by cases ec <= ac
      <> case ec <= ac
        resume by cases d = ac
        <> case dc1 = ac
        [] case dc1 = ac
        <> case ~(dc1 = ac)
          resume by cases dc1 = ec
          <> case dc1 = ec
          [] case dc1 = ec
          <> case ~(dc1 = ec)
          [] case ~(dc1 = ec)
        [] case ~(dc1 = ac)
      [] case ec <= ac
      <> case ~(ec <= ac)
        resume by cases d = ac
        <> case dc2 = ac
        [] case dc2 = ac
        <> case ~(dc2 = ac)
          resume by cases dc2 \in tc
          <> case dc2 \in tc
          [] case dc2 \in tc
          <> case ~(dc2 \in tc)
          [] case ~(dc2 \in tc)
        [] case ~(dc2 = ac)
      [] case ~(ec <= ac)
    [] case ~(ec = ac)
  [] step node(tc, ac, tc1)
  [] conjecture
  qed

% d \in insert(d, t)
duty imply.2
  [] conjecture
  qed

% allBelow(insert(e, t), d) == ((e <= d) /\ (e ~= d)) /\ allBelow(t, d)
duty imply.3
  resume by induction on t
  <> basis leaf
  [] basis leaf
  <> step node(tc, ac, tc1)
    resume by cases e = ac
    <> case ec = ac
      resume by cases ec <= d
      <> case ec <= dc
        resume by cases ec = dc
        <> case ec = dc
        [] case ec = dc
        <> case ~(ec = dc)
        [] case ~(ec = dc)
      [] case ec <= dc
      <> case ~(ec <= dc)
      [] case ~(ec <= dc)
    [] case ec = ac
    <> case ~(ec = ac)
      resume by cases ec <= ac
      <> case ec <= ac
        resume by cases ac <= d
        <> case ac <= dc1
          resume by cases ec <= dc1
          <> case ec <= dc1
            resume by cases ec = dc1
            <> case ec = dc1
            [] case ec = dc1
            <> case ~(ec = dc1)
            [] case ~(ec = dc1)
          [] case ec <= dc1
          <> case ~(ec <= dc1)
          [] case ~(ec <= dc1)
        [] case ac <= dc1
        <> case ~(ac <= dc1)
        [] case ~(ac <= dc1)
      [] case ec <= ac
      <> case ~(ec <= ac)
        resume by cases ac <= d
        <> case ac <= dc2
          resume by cases ac = dc2
          <> case ac = dc2
          [] case ac = dc2
          <> case ~(ac = dc2)
            resume by cases allBelow(tc, dc2)
            <> case allBelow(tc, dc2)
            [] case allBelow(tc, dc2)
            <> case ~(allBelow(tc, dc2))
            [] case ~(allBelow(tc, dc2))
          [] case ~(ac = dc2)
        [] case ac <= dc2
        <> case ~(ac <= dc2)
        [] case ~(ac <= dc2)
      [] case ~(ec <= ac)
    [] case ~(ec = ac)
  [] step node(tc, ac, tc1)
  [] conjecture
  qed

% allAbove(insert(e, t), d) == ((d <= e) /\ (d ~= e)) /\ allAbove(t, d)
duty imply.4
  resume by induction on t
  <> basis leaf
  [] basis leaf
  <> step node(tc, ac, tc1)
    resume by cases e = ac
    <> case ec = ac
      resume by cases d <= ec
      <> case dc <= ec
        resume by cases dc = ec
        <> case dc = ec
        [] case dc = ec
        <> case ~(dc = ec)
        [] case ~(dc = ec)
      [] case dc <= ec
      <> case ~(dc <= ec)
      [] case ~(dc <= ec)
    [] case ec = ac
    <> case ~(ec = ac)
      resume by cases ec <= ac
      <> case ec <= ac
        resume by cases d <= ac
        <> case dc1 <= ac
          resume by cases dc1 <= ec
          <> case dc1 <= ec
            resume by cases dc1 = ec
            <> case dc1 = ec
            [] case dc1 = ec
            <> case ~(dc1 = ec)
            [] case ~(dc1 = ec)
          [] case dc1 <= ec
          <> case ~(dc1 <= ec)
          [] case ~(dc1 <= ec)
        [] case dc1 <= ac
        <> case ~(dc1 <= ac)
        [] case ~(dc1 <= ac)
      [] case ec <= ac
      <> case ~(ec <= ac)
        resume by cases d <= ac
        <> case dc2 <= ac
          resume by cases dc2 = ac
          <> case dc2 = ac
          [] case dc2 = ac
          <> case ~(dc2 = ac)
            resume by cases allAbove(tc, dc2)
            <> case allAbove(tc, dc2)
            [] case allAbove(tc, dc2)
            <> case ~(allAbove(tc, dc2))
            [] case ~(allAbove(tc, dc2))
          [] case ~(dc2 = ac)
        [] case dc2 <= ac
        <> case ~(dc2 <= ac)
        [] case ~(dc2 <= ac)
      [] case ~(ec <= ac)
    [] case ~(ec = ac)
  [] step node(tc, ac, tc1)
  [] conjecture
  qed

% isOrdered(t) => isOrdered(insert(d, t))
duty imply.5
  resume by induction on t
  <> basis leaf
  [] basis leaf
  <> step node(tc, ac, tc1)
    resume by =>
    <> implication
      resume by cases d = ac
      <> case dc = ac
        resume by cases dc <= ac
        <> case dc <= ac
          instantiate x by ac, y by dc in A4
          normalize H1
          normalize H2
          normalize H3
          normalize H3.2
        [] case dc <= ac
        <> case ~(dc <= ac)
        [] case ~(dc <= ac)
      [] case dc = ac
      <> case ~(dc = ac)
        normalize H1
        normalize H2
        instantiate x by ac, y by dc in A3
        resume by cases ac <= dc
        <> case ac <= dc
          normalize D8
        [] case ac <= dc
        <> case ~(ac <= dc)
          instantiate x by dc, y by ac in A4
        [] case ~(ac <= dc)
      [] case ~(dc = ac)
    [] implication
  [] step node(tc, ac, tc1)
  [] conjecture
  qed

% isOrdered(insert(d, leaf))
duty imply.6
  [] conjecture
  qed

% (allBelow(t, e) /\ (d \in t)) => (d <= e)
duty imply.7
  resume by induction on t
  <> basis leaf
  [] basis leaf
  <> step node(tc, ac, tc1)
    resume by =>
    <> implication
      instantiate d by dc, e by ec in H1
      instantiate d by dc, e by ec in H2
      resume by cases dc = ac
      <> case dc = ac
        normalize H3
      [] case dc = ac
      <> case ~(dc = ac)
        normalize H3.5
        resume by contradiction
        <> contradiction
          normalize D1
          normalize D2
          normalize D4
        [] contradiction
      [] case ~(dc = ac)
    [] implication
  [] step node(tc, ac, tc1)
  [] conjecture
  qed

% (allBelow(t, e) /\ (d \in t)) => (d ~= e)
duty imply.8
  resume by induction on t
  <> basis leaf
  [] basis leaf
  <> step node(tc, ac, tc1)
    resume by =>
    <> implication
      instantiate d by dc, e by ec in H1
      instantiate d by dc, e by ec in H2
      resume by cases dc = ac
      <> case dc = ac
        normalize H3
        normalize H3.2
      [] case dc = ac
      <> case ~(dc = ac)
        normalize H3.5
        resume by cases dc = ec
        <> case dc = ec
          normalize D1
          normalize D2
          normalize D5
        [] case dc = ec
        <> case ~(dc = ec)
        [] case ~(dc = ec)
      [] case ~(dc = ac)
    [] implication
  [] step node(tc, ac, tc1)
  [] conjecture
  qed

% (allAbove(t, e) /\ (d \in t)) => (e <= d)
duty imply.9
  resume by induction on t
  <> basis leaf
  [] basis leaf
  <> step node(tc, ac, tc1)
    resume by =>
    <> implication
      instantiate d by dc, e by ec in H1
      instantiate d by dc, e by ec in H2
      resume by cases dc = ac
      <> case dc = ac
        normalize H3
      [] case dc = ac
      <> case ~(dc = ac)
        normalize H3.5
        resume by contradiction
        <> contradiction
          normalize D1
          normalize D2
          normalize D4
        [] contradiction
      [] case ~(dc = ac)
    [] implication
  [] step node(tc, ac, tc1)
  [] conjecture
  qed

% (allAbove(t, e) /\ (d \in t)) => (d ~= e)
duty imply.10
  resume by induction on t
  <> basis leaf
  [] basis leaf
  <> step node(tc, ac, tc1)
    resume by =>
    <> implication
      instantiate d by dc, e by ec in H1
      instantiate d by dc, e by ec in H2
      resume by cases dc = ac
      <> case dc = ac
        normalize H3
        normalize H3.2
      [] case dc = ac
      <> case ~(dc = ac)
        normalize H3.5
        resume by cases dc = ec
        <> case dc = ec
          normalize D1
          normalize D2
          normalize D5
        [] case dc = ec
        <> case ~(dc = ec)
        [] case ~(dc = ec)
      [] case ~(dc = ac)
    [] implication
  [] step node(tc, ac, tc1)
  [] conjecture
  qed

% find(d, t) => (d \in t)
duty imply.11
  resume by induction on t
  <> basis leaf
  [] basis leaf
  <> step node(tc, ac, tc1)
    resume by cases d = ac
    <> case dc = ac
    [] case dc = ac
    <> case ~(dc = ac)
      resume by cases dc <= ac
      <> case dc <= ac
        resume by cases dc \in tc1
        <> case dc \in tc1
        [] case dc \in tc1
        <> case ~(dc \in tc1)
        [] case ~(dc \in tc1)
      [] case dc <= ac
      <> case ~(dc <= ac)
        resume by cases dc \in tc
        <> case dc \in tc
        [] case dc \in tc
        <> case ~(dc \in tc)
        [] case ~(dc \in tc)
      [] case ~(dc <= ac)
    [] case ~(dc = ac)
  [] step node(tc, ac, tc1)
  [] conjecture
  qed

% (isOrdered(t) /\ (d \in t)) => find(d, t)
duty imply.12
  resume by induction on t
  <> basis leaf
  [] basis leaf
  <> step node(tc, ac, tc1)
    resume by =>
    <> implication
      resume by cases dc = ac
      <> case dc = ac
      [] case dc = ac
      <> case ~(dc = ac)
        instantiate d by dc in H1
        instantiate d by dc in H2
        resume by cases dc <= ac
        <> case dc <= ac
          resume by cases dc \in tc
          <> case dc \in tc
            normalize H1
            normalize H2
            normalize H3.5
            normalize D1
          [] case dc \in tc
          <> case ~(dc \in tc)
            normalize H1
            normalize H2
            normalize H3.5
            normalize D1
            normalize D2
            instantiate x by dc, y by ac in A3
            instantiate t by tc1, e by ac, d by dc in L9
          [] case ~(dc \in tc)
        [] case dc <= ac
        <> case ~(dc <= ac)
          normalize H1
          normalize H2
          normalize H3.5
          instantiate t by tc, e by ac, d by dc in L7
          normalize D16
          instantiate d by dc in D15
        [] case ~(dc <= ac)
      [] case ~(dc = ac)
    [] implication
  [] step node(tc, ac, tc1)
  [] conjecture
  qed

% find(d, insert(d, t))
duty imply.13
  resume by induction on t
  <> basis leaf
  [] basis leaf
  <> step node(tc, ac, tc1)
    resume by cases d = ac
    <> case dc = ac
    [] case dc = ac
    <> case ~(dc = ac)
      resume by cases dc <= ac
      <> case dc <= ac
      [] case dc <= ac
      <> case ~(dc <= ac)
      [] case ~(dc <= ac)
    [] case ~(dc = ac)
  [] step node(tc, ac, tc1)
  [] conjecture
  qed

% x1 \in x2 == conv1'(x1, x2)
duty convert.1
  resume by induction on x2
  <> basis leaf
  [] basis leaf
  <> step node(x2c, ac, x2c1)
  [] step node(x2c, ac, x2c1)
  [] conjecture
  qed

% allBelow(x1, x2) == allBelow'(x1, x2)
duty convert.2
  resume by induction on x1
  <> basis leaf
  [] basis leaf
  <> step node(x1c, ac, x1c1)
  [] step node(x1c, ac, x1c1)
  [] conjecture
  qed

% allAbove(x1, x2) == allAbove'(x1, x2)
duty convert.3
  resume by induction on x1
  <> basis leaf
  [] basis leaf
  <> step node(x1c, ac, x1c1)
  [] step node(x1c, ac, x1c1)
  [] conjecture
  qed

% isOrdered(x1) == isOrdered'(x1)
duty convert.4
  resume by induction on x1
  <> basis leaf
  [] basis leaf
  <> step node(x1c, ac, x1c1)
  [] step node(x1c, ac, x1c1)
  [] conjecture
  qed

% insert(x1, x2) == insert'(x1, x2)
duty convert.5
  resume by induction on x2
  <> basis leaf
  [] basis leaf
  <> step node(x2c, ac, x2c1)
  [] step node(x2c, ac, x2c1)
  [] conjecture
  qed

% find(x1, x2) == find'(x1, x2)
duty convert.6
  resume by induction on x2
  <> basis leaf
  [] basis leaf
  <> step node(x2c, ac, x2c1)
  [] step node(x2c, ac, x2c1)
  [] conjecture
  qed
