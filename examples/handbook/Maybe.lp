set box-checking on

% orElse(orElse(x, y), z) == orElse(x, orElse(y, z))
duty imply.1
  resume by induction on x
  <> basis none
  [] basis none
  <> basis some(ac)
  [] basis some(ac)
  [] conjecture
  qed

% orElse(none, x) == x
duty imply.2
  [] conjecture
  qed

% orElse(x, none) == x
duty imply.3
  resume by induction on x
  <> basis none
  [] basis none
  <> basis some(ac)
  [] basis some(ac)
  [] conjecture
  qed

% some(a) ~= none
duty imply.4
  resume by cases some(a) = none
  <> case some(ac) = none
    critical-pairs A3 with H1
  [] case some(ac) = none
  <> case ~(some(ac) = none)
  [] case ~(some(ac) = none)
  [] conjecture
  qed

% some(a) = some(b) == a = b
duty imply.5
  resume by cases some(a) = some(b)
  <> case some(ac) = some(bc)
    critical-pairs A4 with H1
  [] case some(ac) = some(bc)
  <> case ~(some(ac) = some(bc))
    resume by cases ac = bc
    <> case ac = bc
      normalize H2
    [] case ac = bc
    <> case ~(ac = bc)
    [] case ~(ac = bc)
  [] case ~(some(ac) = some(bc))
  [] conjecture
  qed

% isThere(m) == m ~= none
duty imply.6
  resume by induction on m
  <> basis none
  [] basis none
  <> basis some(ac)
  [] basis some(ac)
  [] conjecture
  qed

% isThere(m) => (some(value(m)) = m)
duty imply.7
  resume by induction on m
  <> basis none
  [] basis none
  <> basis some(ac)
  [] basis some(ac)
  [] conjecture
  qed

% isThere(orElse(m, n)) == isThere(m) \/ isThere(n)
duty imply.8
  resume by induction on m
  <> basis none
  [] basis none
  <> basis some(ac)
  [] basis some(ac)
  [] conjecture
  qed

% orElse(m, m) == m
duty imply.9
  resume by induction on m
  <> basis none
  [] basis none
  <> basis some(ac)
  [] basis some(ac)
  [] conjecture
  qed

% withDefault(some(a), b) == a
duty imply.10
  [] conjecture
  qed

% withDefault(orElse(m, n), a) == withDefault(m, withDefault(n, a))
duty imply.11
  resume by induction on m
  <> basis none
  [] basis none
  <> basis some(ac)
  [] basis some(ac)
  [] conjecture
  qed

% thenG(thenF(some(a))) == fg(a)
duty imply.12
  [] conjecture
  qed

% isThere(thenG(thenF(m))) => isThere(thenF(m))
duty imply.13
  resume by cases thenF(m) = none
  <> case thenF(mc) = none
  [] case thenF(mc) = none
  <> case ~(thenF(mc) = none)
  [] case ~(thenF(mc) = none)
  [] conjecture
  qed

% isThere(thenF(m)) => isThere(m)
duty imply.14
  resume by induction on m
  <> basis none
  [] basis none
  <> basis some(ac)
  [] basis some(ac)
  [] conjecture
  qed

% M partitioned by isThere, value
duty imply.15
  resume by cases lc = none
  <> case lc = none
    normalize H1
  [] case lc = none
  <> case ~(lc = none)
    normalize H1
    instantiate m by lc in L7
    instantiate m by rc in L7
  [] case ~(lc = none)
  [] conjecture
  qed

% isThere(x1) == isThere'(x1)
duty convert.1
  resume by induction on x1
  <> basis none
  [] basis none
  <> basis some(ac)
  [] basis some(ac)
  [] conjecture
  qed

% orElse(x1, x2) == orElse'(x1, x2)
duty convert.2
  resume by induction on x1
  <> basis none
  [] basis none
  <> basis some(ac)
  [] basis some(ac)
  [] conjecture
  qed

% thenF(x1) == thenF'(x1)
duty convert.3
  resume by induction on x1
  <> basis none
  [] basis none
  <> basis some(ac)
  [] basis some(ac)
  [] conjecture
  qed

% thenG(x1) == thenG'(x1)
duty convert.4
  resume by induction on x1
  <> basis none
  [] basis none
  <> basis some(ac)
  [] basis some(ac)
  [] conjecture
  qed

% value(x1) == value'(x1)
duty convert.5
  resume by induction on x1
  <> basis none
  [] basis none
  <> basis some(ac)
  [] basis some(ac)
  [] conjecture
  qed
