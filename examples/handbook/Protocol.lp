set box-checking on

% (x ++ y) ++ z == x ++ (y ++ z)
duty imply.1
  resume by induction on x
  <> basis nil
  [] basis nil
  <> step cons(ac, xc)
  [] step cons(ac, xc)
  [] conjecture
  qed

% nil ++ x == x
duty imply.2
  [] conjecture
  qed

% x ++ nil == x
duty imply.3
  resume by induction on x
  <> basis nil
  [] basis nil
  <> step cons(ac, xc)
  [] step cons(ac, xc)
  [] conjecture
  qed

% isEmpty(l) => (l = nil)
duty imply.4
  resume by induction on l
  <> basis nil
  [] basis nil
  <> step cons(ac, lc)
  [] step cons(ac, lc)
  [] conjecture
  qed

% (~ isEmpty(l)) => (cons(head(l), tail(l)) = l)
duty imply.5
  resume by induction on l
  <> basis nil
  [] basis nil
  <> step cons(ac, lc)
  [] step cons(ac, lc)
  [] conjecture
  qed

% isRight(begin(l), l)
duty imply.6
  resume by cases isEmpty(l)
  <> case isEmpty(lc)
    instantiate l by lc in L4
  [] case isEmpty(lc)
  <> case ~(isEmpty(lc))
  [] case ~(isEmpty(lc))
  [] conjecture
  qed

% (k ++ single(head(l))) ++ tail(l) == k ++ cons(head(l), tail(l))
duty imply.7
  [] conjecture
  qed

% isRight(c, l) => isRight(deliver(c), l)
duty imply.8
  resume by induction on c
  <> basis [ac, ac1, ac2, ac3]
    resume by cases isEmpty(ac)
    <> case isEmpty(ac)
    [] case isEmpty(ac)
    <> case ~(isEmpty(ac))
      instantiate l by ac in L5
      resume by cases ac1
      <> case ac1
        resume by cases ac3
        <> case ac3
        [] case ac3
        <> case ~(ac3)
        [] case ~(ac3)
      [] case ac1
      <> case ~(ac1)
        resume by cases ac3
        <> case ac3
        [] case ac3
        <> case ~(ac3)
        [] case ~(ac3)
      [] case ~(ac1)
    [] case ~(isEmpty(ac))
  [] basis [ac, ac1, ac2, ac3]
  [] conjecture
  qed

% isRight(c, l) => isRight(acknowledge(c), l)
duty imply.9
  resume by induction on c
  <> basis [ac, ac1, ac2, ac3]
    resume by cases isEmpty(ac)
    <> case isEmpty(ac)
    [] case isEmpty(ac)
    <> case ~(isEmpty(ac))
      resume by cases ac1
      <> case ac1
        resume by cases ac3
        <> case ac3
        [] case ac3
        <> case ~(ac3)
          resume by cases isEmpty(tail(ac))
          <> case isEmpty(tail(ac))
            instantiate l by tail(ac) in L4
          [] case isEmpty(tail(ac))
          <> case ~(isEmpty(tail(ac)))
          [] case ~(isEmpty(tail(ac)))
        [] case ~(ac3)
      [] case ac1
      <> case ~(ac1)
        resume by cases ac3
        <> case ac3
          resume by cases isEmpty(tail(ac))
          <> case isEmpty(tail(ac))
            instantiate l by tail(ac) in L4
          [] case isEmpty(tail(ac))
          <> case ~(isEmpty(tail(ac)))
          [] case ~(isEmpty(tail(ac)))
        [] case ac3
        <> case ~(ac3)
        [] case ~(ac3)
      [] case ~(ac1)
    [] case ~(isEmpty(ac))
  [] basis [ac, ac1, ac2, ac3]
  [] conjecture
  qed

% (isRight(c, l) /\ isEmpty(c.toSend)) => ((c.received) = l)
duty imply.10
  resume by =>
  <> implication
    normalize H1
  [] implication
  [] conjecture
  qed

% deliver(deliver(c)) == deliver(c)
duty imply.11
  resume by induction on c
  <> basis [ac, ac1, ac2, ac3]
    resume by cases isEmpty(ac)
    <> case isEmpty(ac)
    [] case isEmpty(ac)
    <> case ~(isEmpty(ac))
      resume by cases ac1
      <> case ac1
        resume by cases ac3
        <> case ac3
        [] case ac3
        <> case ~(ac3)
        [] case ~(ac3)
      [] case ac1
      <> case ~(ac1)
        resume by cases ac3
        <> case ac3
        [] case ac3
        <> case ~(ac3)
        [] case ~(ac3)
      [] case ~(ac1)
    [] case ~(isEmpty(ac))
  [] basis [ac, ac1, ac2, ac3]
  [] conjecture
  qed

% acknowledge(acknowledge(c)) == acknowledge(c)
duty imply.12
  resume by induction on c
  <> basis [ac, ac1, ac2, ac3]
    resume by cases isEmpty(ac)
    <> case isEmpty(ac)
    [] case isEmpty(ac)
    <> case ~(isEmpty(ac))
      resume by cases ac1
      <> case ac1
        resume by cases ac3
        <> case ac3
        [] case ac3
        <> case ~(ac3)
        [] case ~(ac3)
      [] case ac1
      <> case ~(ac1)
        resume by cases ac3
        <> case ac3
        [] case ac3
        <> case ~(ac3)
        [] case ~(ac3)
      [] case ~(ac1)
    [] case ~(isEmpty(ac))
  [] basis [ac, ac1, ac2, ac3]
  [] conjecture
  qed

% deliver(c).toSend == c.toSend
duty imply.13
  resume by induction on c
  <> basis [ac, ac1, ac2, ac3]
    resume by cases isEmpty(ac)
    <> case isEmpty(ac)
    [] case isEmpty(ac)
    <> case ~(isEmpty(ac))
      resume by cases ac1
      <> case ac1
        resume by cases ac3
        <> case ac3
        [] case ac3
        <> case ~(ac3)
        [] case ~(ac3)
      [] case ac1
      <> case ~(ac1)
        resume by cases ac3
        <> case ac3
        [] case ac3
        <> case ~(ac3)
        [] case ~(ac3)
      [] case ~(ac1)
    [] case ~(isEmpty(ac))
  [] basis [ac, ac1, ac2, ac3]
  [] conjecture
  qed

% acknowledge(c).received == c.received
duty imply.14
  resume by induction on c
  <> basis [ac, ac1, ac2, ac3]
    resume by cases isEmpty(ac)
    <> case isEmpty(ac)
    [] case isEmpty(ac)
    <> case ~(isEmpty(ac))
      resume by cases ac1
      <> case ac1
        resume by cases ac3
        <> case ac3
        [] case ac3
        <> case ~(ac3)
        [] case ~(ac3)
      [] case ac1
      <> case ~(ac1)
        resume by cases ac3
        <> case ac3
        [] case ac3
        <> case ~(ac3)
        [] case ~(ac3)
      [] case ~(ac1)
    [] case ~(isEmpty(ac))
  [] basis [ac, ac1, ac2, ac3]
  [] conjecture
  qed

% begin(x1) == begin'(x1)
duty convert.1
  [] conjecture
  qed

% deliver(x1) == deliver'(x1)
duty convert.2
  [] conjecture
  qed

% acknowledge(x1) == acknowledge'(x1)
duty convert.3
  [] conjecture
  qed

% isRight(x1, x2) == isRight'(x1, x2)
duty convert.4
  [] conjecture
  qed
