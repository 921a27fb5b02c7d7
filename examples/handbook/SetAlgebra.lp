set box-checking on

% (x \inter y) \inter z == x \inter (y \inter z)
duty imply.1
  resume by partition
  <> observer
    resume by cases ac \in x
    <> case ac \in xc
    [] case ac \in xc
    <> case ~(ac \in xc)
    [] case ~(ac \in xc)
  [] observer
  [] conjecture
  qed

% (x \union y) \union z == x \union (y \union z)
duty imply.2
  resume by partition
  <> observer
    resume by cases ac \in x
    <> case ac \in xc
    [] case ac \in xc
    <> case ~(ac \in xc)
    [] case ~(ac \in xc)
  [] observer
  [] conjecture
  qed

% x \inter y == y \inter x
duty imply.3
  resume by partition
  <> observer
    resume by cases ac \in x
    <> case ac \in xc
    [] case ac \in xc
    <> case ~(ac \in xc)
    [] case ~(ac \in xc)
  [] observer
  [] conjecture
  qed

% x \union y == y \union x
duty imply.4
  resume by partition
  <> observer
    resume by cases ac \in x
    <> case ac \in xc
    [] case ac \in xc
    <> case ~(ac \in xc)
    [] case ~(ac \in xc)
  [] observer
  [] conjecture
  qed

% x \inter (x \union y) == x
duty imply.5
  resume by partition
  <> observer
    resume by cases ac \in x
    <> case ac \in xc
    [] case ac \in xc
    <> case ~(ac \in xc)
    [] case ~(ac \in xc)
  [] observer
  [] conjecture
  qed

% x \union (x \inter y) == x
duty imply.6
  resume by partition
  <> observer
    resume by cases ac \in x
    <> case ac \in xc
    [] case ac \in xc
    <> case ~(ac \in xc)
    [] case ~(ac \in xc)
  [] observer
  [] conjecture
  qed

% x \subseteq y == (x \inter y) = x
duty imply.7
  [] conjecture
  qed

% x \inter (y \union z) == (x \inter y) \union (x \inter z)
duty imply.8
  resume by partition
  <> observer
    resume by cases ac \in x
    <> case ac \in xc
    [] case ac \in xc
    <> case ~(ac \in xc)
    [] case ~(ac \in xc)
  [] observer
  [] conjecture
  qed

% a \union {} == a
duty imply.9
  resume by partition
  <> observer
  [] observer
  [] conjecture
  qed

% a \inter {} == {}
duty imply.10
  resume by partition
  <> observer
  [] observer
  [] conjecture
  qed

% a \union a == a
duty imply.11
  resume by partition
  <> observer
  [] observer
  [] conjecture
  qed

% insert(e, a) == {e} \union a
duty imply.12
  resume by partition
  <> observer
  [] observer
  [] conjecture
  qed

% insert(e, a) \union b == insert(e, a \union b)
duty imply.13
  resume by partition
  <> observer
    resume by cases ac = e
    <> case ac = ec
    [] case ac = ec
    <> case ~(ac = ec)
    [] case ~(ac = ec)
  [] observer
  [] conjecture
  qed

% insert(e, a) \inter b == if (e \in b) then insert(e, a \inter b) else (a \inter b)
duty imply.14
  resume by partition
  <> observer
    resume by cases ac = e
    <> case ac = ec
      resume by cases ec \in b
      <> case ec \in bc
      [] case ec \in bc
      <> case ~(ec \in bc)
      [] case ~(ec \in bc)
    [] case ac = ec
    <> case ~(ac = ec)
      resume by cases ec \in b
      <> case ec \in bc1
      [] case ec \in bc1
      <> case ~(ec \in bc1)
      [] case ~(ec \in bc1)
    [] case ~(ac = ec)
  [] observer
  [] conjecture
  qed

% insert(e, a) - b == if (e \in b) then (a - b) else insert(e, a - b)
duty imply.15
  resume by partition
  <> observer
    resume by cases ac = e
    <> case ac = ec
      resume by cases ec \in b
      <> case ec \in bc
      [] case ec \in bc
      <> case ~(ec \in bc)
      [] case ~(ec \in bc)
    [] case ac = ec
    <> case ~(ac = ec)
      resume by cases ec \in b
      <> case ec \in bc1
      [] case ec \in bc1
      <> case ~(ec \in bc1)
      [] case ~(ec \in bc1)
    [] case ~(ac = ec)
  [] observer
  [] conjecture
  qed

% a - {} == a
duty imply.16
  resume by partition
  <> observer
  [] observer
  [] conjecture
  qed

% {} - a == {}
duty imply.17
  resume by partition
  <> observer
  [] observer
  [] conjecture
  qed

% a - a == {}
duty imply.18
  resume by partition
  <> observer
  [] observer
  [] conjecture
  qed

% delete(e, a) == a - {e}
duty imply.19
  resume by partition
  <> observer
    resume by cases ac = e
    <> case ac = ec
    [] case ac = ec
    <> case ~(ac = ec)
    [] case ~(ac = ec)
  [] observer
  [] conjecture
  qed

% a - (b \union c) == (a - b) - c
duty imply.20
  resume by partition
  <> observer
    resume by cases ac \in b
    <> case ac \in bc
    [] case ac \in bc
    <> case ~(ac \in bc)
    [] case ~(ac \in bc)
  [] observer
  [] conjecture
  qed

% a - (b \union c) == (a - b) \inter (a - c)
duty imply.21
  resume by partition
  <> observer
    resume by cases ac \in a
    <> case ac \in ac1
      resume by cases ac \in b
      <> case ac \in bc
      [] case ac \in bc
      <> case ~(ac \in bc)
      [] case ~(ac \in bc)
    [] case ac \in ac1
    <> case ~(ac \in ac1)
    [] case ~(ac \in ac1)
  [] observer
  [] conjecture
  qed

% a - (b \inter c) == (a - b) \union (a - c)
duty imply.22
  resume by partition
  <> observer
    resume by induction on b
    <> basis {}
      resume by cases ac \in a
      <> case ac \in ac2
      [] case ac \in ac2
      <> case ~(ac \in ac2)
      [] case ~(ac \in ac2)
    [] basis {}
    <> step insert(ac1, bc)
      resume by cases ac = ac1
      <> case ac = ac1
      [] case ac = ac1
      <> case ~(ac = ac1)
      [] case ~(ac = ac1)
    [] step insert(ac1, bc)
  [] observer
  [] conjecture
  qed

% (a - b) \union b == a \union b
duty imply.23
  resume by partition
  <> observer
    resume by cases ac \in a
    <> case ac \in ac1
    [] case ac \in ac1
    <> case ~(ac \in ac1)
    [] case ~(ac \in ac1)
  [] observer
  [] conjecture
  qed

% (a - b) \inter b == {}
duty imply.24
  resume by partition
  <> observer
    resume by cases ac \in a
    <> case ac \in ac1
    [] case ac \in ac1
    <> case ~(ac \in ac1)
    [] case ~(ac \in ac1)
  [] observer
  [] conjecture
  qed

% (a \union b) - c == (a - c) \union (b - c)
duty imply.25
  resume by partition
  <> observer
    resume by cases ac \in c
    <> case ac \in cc
    [] case ac \in cc
    <> case ~(ac \in cc)
    [] case ~(ac \in cc)
  [] observer
  [] conjecture
  qed

% {} \subseteq a
duty imply.26
  resume by partition
  <> observer
  [] observer
  [] conjecture
  qed

% a \subseteq insert(e, a)
duty imply.27
  resume by partition
  <> observer
    resume by cases ac \in a
    <> case ac \in ac1
    [] case ac \in ac1
    <> case ~(ac \in ac1)
    [] case ~(ac \in ac1)
  [] observer
  [] conjecture
  qed

% ((a \subseteq b) /\ (e \in a)) => (e \in b)
duty imply.28
  resume by =>
  <> implication
    critical-pairs A8 with H1
    instantiate v1 by ec in D1
  [] implication
  [] conjecture
  qed

% insert(e, a) \subseteq b == (e \in b) /\ (a \subseteq b)
duty imply.29
  prove (e \in b /\ insert(e, a \inter b) = insert(e, a)) => (a \inter b) = a
    resume by =>
    <> implication
      critical-pairs A4 with H1.2
      resume by partition
      <> observer
        instantiate v1 by ac1 in D1
        resume by cases ac1 \in ac
        <> case ac1 \in ac
          resume by cases ac1 = ec
          <> case ac1 = ec
            normalize H1
          [] case ac1 = ec
          <> case ~(ac1 = ec)
            normalize D2
          [] case ~(ac1 = ec)
        [] case ac1 \in ac
        <> case ~(ac1 \in ac)
        [] case ~(ac1 \in ac)
      [] observer
    [] implication
  [] lemma
  resume by cases e \in b
  <> case ec1 \in bc1
    resume by cases (a \inter bc1) = a
    <> case (ac2 \inter bc1) = ac2
    [] case (ac2 \inter bc1) = ac2
    <> case ~((ac2 \inter bc1) = ac2)
      instantiate e by ec1, a by ac2, b by bc1 in D5
    [] case ~((ac2 \inter bc1) = ac2)
  [] case ec1 \in bc1
  <> case ~(ec1 \in bc1)
    resume by contradiction
    <> contradiction
      critical-pairs A8 with H10
      instantiate v1 by ec1 in D7
    [] contradiction
  [] case ~(ec1 \in bc1)
  [] conjecture
  qed

% S generated by {}, {__}, __ \union __
duty imply.30
  resume by induction on x
  <> basis {}
  [] basis {}
  <> step insert(ac, xc)
    instantiate x1 by insert(ac, {}), x2 by xc in H3
  [] step insert(ac, xc)
  [] conjecture
  qed

% x1 \union x2 == conv1'(x1, x2)
duty convert.1
  resume by partition
  <> observer
  [] observer
  [] conjecture
  qed

% x1 \inter x2 == conv2'(x1, x2)
duty convert.2
  resume by partition
  <> observer
  [] observer
  [] conjecture
  qed

% x1 - x2 == conv3'(x1, x2)
duty convert.3
  resume by partition
  <> observer
  [] observer
  [] conjecture
  qed

% x1 \subseteq x2 == conv4'(x1, x2)
duty convert.4
  [] conjecture
  qed
