set box-checking on

% isEmpty(q) => (q = empty)
duty imply.1
  resume by induction on q
  <> basis empty
  [] basis empty
  <> step add(ac, qc)
  [] step add(ac, qc)
  [] conjecture
  qed

% first(add(e, empty)) == e
duty imply.2
  [] conjecture
  qed

% first(add(e, q)) <= e
duty imply.3
  resume by induction on q
  <> basis empty
  [] basis empty
  <> step add(ac, qc)
    resume by cases e <= (if isEmpty(qc) then ac else (if (ac <= first(qc)) then ac else first(qc)))
    <> case ec <= (if isEmpty(qc) then ac else (if (ac <= first(qc)) then ac else first(qc)))
    [] case ec <= (if isEmpty(qc) then ac else (if (ac <= first(qc)) then ac else first(qc)))
    <> case ~(ec <= (if isEmpty(qc) then ac else (if (ac <= first(qc)) then ac else first(qc))))
      instantiate x by if isEmpty(qc) then ac else (if (ac <= first(qc)) then ac else first(qc)), y by ec in A4
    [] case ~(ec <= (if isEmpty(qc) then ac else (if (ac <= first(qc)) then ac else first(qc))))
  [] step add(ac, qc)
  [] conjecture
  qed

% (~ isEmpty(q)) => (first(add(e, q)) <= first(q))
duty imply.4
  resume by =>
  <> implication
    resume by cases e <= first(qc)
    <> case ec <= first(qc)
    [] case ec <= first(qc)
    <> case ~(ec <= first(qc))
    [] case ~(ec <= first(qc))
  [] implication
  [] conjecture
  qed

% first(add(d, add(e, q))) == first(add(e, add(d, q)))
duty imply.5
  resume by cases isEmpty(q)
  <> case isEmpty(qc)
    resume by cases d <= e
    <> case dc <= ec
      resume by cases ec <= dc
      <> case ec <= dc
        instantiate x by dc, y by ec in A3
      [] case ec <= dc
      <> case ~(ec <= dc)
      [] case ~(ec <= dc)
    [] case dc <= ec
    <> case ~(dc <= ec)
      instantiate x by dc, y by ec in A4
    [] case ~(dc <= ec)
  [] case isEmpty(qc)
  <> case ~(isEmpty(qc))
    resume by cases e <= first(qc)
    <> case ec1 <= first(qc)
      resume by cases d <= first(qc)
      <> case dc1 <= first(qc)
        resume by cases dc1 <= ec1
        <> case dc1 <= ec1
          resume by cases ec1 <= dc1
          <> case ec1 <= dc1
            instantiate x by dc1, y by ec1 in A3
          [] case ec1 <= dc1
          <> case ~(ec1 <= dc1)
          [] case ~(ec1 <= dc1)
        [] case dc1 <= ec1
        <> case ~(dc1 <= ec1)
          instantiate x by dc1, y by ec1 in A4
        [] case ~(dc1 <= ec1)
      [] case dc1 <= first(qc)
      <> case ~(dc1 <= first(qc))
        instantiate x by dc1, y by ec1, z by first(qc) in A2
      [] case ~(dc1 <= first(qc))
    [] case ec1 <= first(qc)
    <> case ~(ec1 <= first(qc))
      resume by cases d <= first(qc)
      <> case dc2 <= first(qc)
        instantiate x by ec1, y by dc2, z by first(qc) in A2
      [] case dc2 <= first(qc)
      <> case ~(dc2 <= first(qc))
      [] case ~(dc2 <= first(qc))
    [] case ~(ec1 <= first(qc))
  [] case ~(isEmpty(qc))
  [] conjecture
  qed

% isEmpty(rest(add(e, empty)))
duty imply.6
  [] conjecture
  qed

% (isAtMost(d, q) /\ (e <= d)) => isAtMost(e, q)
duty imply.7
  resume by induction on q
  <> basis empty
  [] basis empty
  <> step add(ac, qc)
    resume by =>
    <> implication
      instantiate x by ec, y by dc, z by ac in A2
      instantiate d by dc, e by ec in H1
    [] implication
  [] step add(ac, qc)
  [] conjecture
  qed

% isEmpty(q) => isAtMost(d, q)
duty imply.8
  resume by induction on q
  <> basis empty
  [] basis empty
  <> step add(ac, qc)
  [] step add(ac, qc)
  [] conjecture
  qed

% (isAtMost(d, q) /\ (~ isEmpty(q))) => (d <= first(q))
duty imply.9
  resume by induction on q
  <> basis empty
  [] basis empty
  <> step add(ac, qc)
    resume by cases isEmpty(qc)
    <> case isEmpty(qc)
      resume by =>
      <> implication
      [] implication
    [] case isEmpty(qc)
    <> case ~(isEmpty(qc))
      resume by cases ac <= first(qc)
      <> case ac <= first(qc)
        resume by =>
        <> implication
        [] implication
      [] case ac <= first(qc)
      <> case ~(ac <= first(qc))
        resume by =>
        <> implication
          instantiate d by dc2 in H1
        [] implication
      [] case ~(ac <= first(qc))
    [] case ~(isEmpty(qc))
  [] step add(ac, qc)
  [] conjecture
  qed

% ((~ isEmpty(q)) /\ (d <= first(q))) => isAtMost(d, q)
duty imply.10
  resume by induction on q
  <> basis empty
  [] basis empty
  <> step add(ac, qc)
    resume by cases isEmpty(qc)
    <> case isEmpty(qc)
      instantiate q by qc in L8
    [] case isEmpty(qc)
    <> case ~(isEmpty(qc))
      resume by cases ac <= first(qc)
      <> case ac <= first(qc)
        resume by =>
        <> implication
          instantiate x by dc, y by ac, z by first(qc) in A2
          instantiate d by dc in H1
        [] implication
      [] case ac <= first(qc)
      <> case ~(ac <= first(qc))
        resume by =>
        <> implication
          instantiate x by ac, y by first(qc) in A4
          instantiate x by dc1, y by first(qc), z by ac in A2
          instantiate d by dc1 in H1
        [] implication
      [] case ~(ac <= first(qc))
    [] case ~(isEmpty(qc))
  [] step add(ac, qc)
  [] conjecture
  qed

% (~ isEmpty(q)) => isAtMost(first(q), rest(q))
duty imply.11
  resume by induction on q
  <> basis empty
  [] basis empty
  <> step add(ac, qc)
    resume by cases isEmpty(qc)
    <> case isEmpty(qc)
    [] case isEmpty(qc)
    <> case ~(isEmpty(qc))
      resume by cases ac <= first(qc)
      <> case ac <= first(qc)
        instantiate d by ac, q by qc in L10
      [] case ac <= first(qc)
      <> case ~(ac <= first(qc))
        instantiate x by ac, y by first(qc) in A4
        normalize H1
      [] case ~(ac <= first(qc))
    [] case ~(isEmpty(qc))
  [] step add(ac, qc)
  [] conjecture
  qed

% isEmpty(x1) == isEmpty'(x1)
duty convert.1
  resume by induction on x1
  <> basis empty
  [] basis empty
  <> step add(ac, x1c)
  [] step add(ac, x1c)
  [] conjecture
  qed

% isAtMost(x1, x2) == isAtMost'(x1, x2)
duty convert.2
  resume by induction on x2
  <> basis empty
  [] basis empty
  <> step add(ac, x2c)
  [] step add(ac, x2c)
  [] conjecture
  qed

% first(x1) == first'(x1)
duty convert.3
  resume by induction on x1
  <> basis empty
  [] basis empty
  <> step add(ac, x1c)
  [] step add(ac, x1c)
  [] conjecture
  qed

% rest(x1) == rest'(x1)
duty convert.4
  resume by induction on x1
  <> basis empty
  [] basis empty
  <> step add(ac, x1c)
  [] step add(ac, x1c)
  [] conjecture
  qed
