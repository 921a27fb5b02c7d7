set box-checking on

% [a, b] = [c, d] == (a = c) /\ (b = d)
duty imply.1
  resume by cases [a, b] = [c, d]
  <> case [ac, bc] = [cc, dc]
    critical-pairs A3 with H1
    critical-pairs A4 with H1
  [] case [ac, bc] = [cc, dc]
  <> case ~([ac, bc] = [cc, dc])
    resume by cases ac = cc
    <> case ac = cc
      normalize H2
      resume by cases bc = dc
      <> case bc = dc
        normalize D3
      [] case bc = dc
      <> case ~(bc = dc)
      [] case ~(bc = dc)
    [] case ac = cc
    <> case ~(ac = cc)
    [] case ~(ac = cc)
  [] case ~([ac, bc] = [cc, dc])
  [] conjecture
  qed

% [p.first, p.second] == p
duty imply.2
  resume by induction on p
  <> basis [ac, ac1]
  [] basis [ac, ac1]
  [] conjecture
  qed

% p = r == ((p.first) = (r.first)) /\ ((p.second) = (r.second))
duty imply.3
  resume by induction on p
  <> basis [ac, ac1]
    resume by induction on r
    <> basis [ac2, ac3]
    [] basis [ac2, ac3]
  [] basis [ac, ac1]
  [] conjecture
  qed

% set_first(set_first(p, a), c) == set_first(p, c)
duty imply.4
  resume by induction on p
  <> basis [ac, ac1]
  [] basis [ac, ac1]
  [] conjecture
  qed

% set_second(set_first(p, a), b) == [a, b]
duty imply.5
  resume by induction on p
  <> basis [ac, ac1]
  [] basis [ac, ac1]
  [] conjecture
  qed

% set_first(p, p.first) == p
duty imply.6
  resume by induction on p
  <> basis [ac, ac1]
  [] basis [ac, ac1]
  [] conjecture
  qed

% set_first(p, a).second == p.second
duty imply.7
  resume by induction on p
  <> basis [ac, ac1]
  [] basis [ac, ac1]
  [] conjecture
  qed

% back(swap(p)) == p
duty imply.8
  [] conjecture
  qed

% swap(back(q)) == q
duty imply.9
  resume by induction on q
  <> basis [ac, ac1]
  [] basis [ac, ac1]
  [] conjecture
  qed

% (swap(p) = q) => (back(q) = p)
duty imply.10
  resume by =>
  <> implication
    critical-pairs A10 with H1
    critical-pairs A9 with H1
  [] implication
  [] conjecture
  qed

% swap(p).first == p.first
duty imply.11
  [] conjecture
  qed

% swap(x1) == swap'(x1)
duty convert.1
  [] conjecture
  qed

% back(x1) == back'(x1)
duty convert.2
  [] conjecture
  qed
