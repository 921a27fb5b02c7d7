set box-checking on

% push(e, t) ~= empty
duty imply.1
  resume by cases push(e, t) = empty
  <> case push(ec, tc) = empty
    critical-pairs A11 with H1
  [] case push(ec, tc) = empty
  <> case ~(push(ec, tc) = empty)
  [] case ~(push(ec, tc) = empty)
  [] conjecture
  qed

% push(d, t) = push(e, u) == (d = e) /\ (t = u)
duty imply.2
  resume by cases push(d, t) = push(e, u)
  <> case push(dc, tc) = push(ec, uc)
    critical-pairs A8 with H1
    critical-pairs A9 with H1
  [] case push(dc, tc) = push(ec, uc)
  <> case ~(push(dc, tc) = push(ec, uc))
    resume by cases dc = ec
    <> case dc = ec
      normalize H2
      resume by cases tc = uc
      <> case tc = uc
        normalize D3
      [] case tc = uc
      <> case ~(tc = uc)
      [] case ~(tc = uc)
    [] case dc = ec
    <> case ~(dc = ec)
    [] case ~(dc = ec)
  [] case ~(push(dc, tc) = push(ec, uc))
  [] conjecture
  qed

% (~ isEmpty(t)) => (push(top(t), pop(t)) = t)
duty imply.3
  resume by induction on t
  <> basis empty
  [] basis empty
  <> step push(ac, tc)
  [] step push(ac, tc)
  [] conjecture
  qed

% isEmpty(t) => (t = empty)
duty imply.4
  resume by induction on t
  <> basis empty
  [] basis empty
  <> step push(ac, tc)
  [] step push(ac, tc)
  [] conjecture
  qed

% size(t) = 0 == isEmpty(t)
duty imply.5
  resume by induction on t
  <> basis empty
  [] basis empty
  <> step push(ac, tc)
  [] step push(ac, tc)
  [] conjecture
  qed

% (~ isEmpty(t)) => (s(size(pop(t))) = size(t))
duty imply.6
  resume by induction on t
  <> basis empty
  [] basis empty
  <> step push(ac, tc)
  [] step push(ac, tc)
  [] conjecture
  qed

% swap(swap(push(d, push(e, t)))) == push(d, push(e, t))
duty imply.7
  [] conjecture
  qed

% top(pop(push(d, push(e, t)))) == e
duty imply.8
  [] conjecture
  qed

% S partitioned by top, pop, isEmpty
duty imply.9
  resume by cases isEmpty(lc)
  <> case isEmpty(lc)
    instantiate t by rc in L4
    instantiate t by lc in L4
  [] case isEmpty(lc)
  <> case ~(isEmpty(lc))
    instantiate t by rc in L3
    instantiate t by lc in L3
  [] case ~(isEmpty(lc))
  [] conjecture
  qed

% isEmpty(x1) == isEmpty'(x1)
duty convert.1
  resume by induction on x1
  <> basis empty
  [] basis empty
  <> step push(ac, x1c)
  [] step push(ac, x1c)
  [] conjecture
  qed

% size(x1) == size'(x1)
duty convert.2
  resume by induction on x1
  <> basis empty
  [] basis empty
  <> step push(ac, x1c)
  [] step push(ac, x1c)
  [] conjecture
  qed

% top(x1) == top'(x1)
duty convert.3
  resume by induction on x1
  <> basis empty
  [] basis empty
  <> step push(ac, x1c)
  [] step push(ac, x1c)
  [] conjecture
  qed

% pop(x1) == pop'(x1)
duty convert.4
  resume by induction on x1
  <> basis empty
  [] basis empty
  <> step push(ac, x1c)
  [] step push(ac, x1c)
  [] conjecture
  qed

% swap(x1) == swap'(x1)
duty convert.5
  resume by induction on x1
  <> basis empty
  [] basis empty
  <> step push(ac, x1c)
    resume by cases isEmpty(x1c)
    <> case isEmpty(x1c)
      instantiate t by x1c in L4
      normalize A17
    [] case isEmpty(x1c)
    <> case ~(isEmpty(x1c))
      instantiate t by x1c in L3
      critical-pairs A14 with D3
      critical-pairs A15 with D3
    [] case ~(isEmpty(x1c))
  [] step push(ac, x1c)
  [] conjecture
  qed
