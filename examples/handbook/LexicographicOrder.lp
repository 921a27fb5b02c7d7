set box-checking on

% x <= x
duty imply.1
  [] conjecture
  qed

% ((x <= y) /\ (y <= z)) => (x <= z)
duty imply.2
  resume by =>
  <> implication
    resume by cases xc.first = yc.first
    <> case (xc.first) = (yc.first)
      resume by cases yc.first = zc.first
      <> case (yc.first) = (zc.first)
        normalize H1
        normalize H1.2
        normalize H2
        instantiate x by xc.second, y by yc.second, z by zc.second in A6
      [] case (yc.first) = (zc.first)
      <> case ~((yc.first) = (zc.first))
        normalize H1
        normalize H1.2
      [] case ~((yc.first) = (zc.first))
    [] case (xc.first) = (yc.first)
    <> case ~((xc.first) = (yc.first))
      normalize H1
      resume by cases (xc.first) = (zc.first)
      <> case (xc.first) = (zc.first)
        normalize H5
        normalize H1.2
        normalize D7
        instantiate x by zc.first, y by yc.first in A3
      [] case (xc.first) = (zc.first)
      <> case ~((xc.first) = (zc.first))
        resume by cases (yc.first) = (zc.first)
        <> case (yc.first) = (zc.first)
          normalize D7
        [] case (yc.first) = (zc.first)
        <> case ~((yc.first) = (zc.first))
          normalize H1.2
          instantiate x by xc.first, y by yc.first, z by zc.first in A2
        [] case ~((yc.first) = (zc.first))
      [] case ~((xc.first) = (zc.first))
    [] case ~((xc.first) = (yc.first))
  [] implication
  [] conjecture
  qed

% ((x <= y) /\ (y <= x)) => (x = y)
duty imply.3
  resume by =>
  <> implication
    resume by cases xc.first = yc.first
    <> case (xc.first) = (yc.first)
      resume by partition
      <> observer 1
      [] observer 1
      <> observer 2
        normalize H1
        normalize H1.2
        instantiate x by xc.second, y by yc.second in A7
      [] observer 2
    [] case (xc.first) = (yc.first)
    <> case ~((xc.first) = (yc.first))
      normalize H1
      normalize H1.2
      instantiate x by xc.first, y by yc.first in A3
    [] case ~((xc.first) = (yc.first))
  [] implication
  [] conjecture
  qed

% (x <= y) \/ (y <= x)
duty imply.4
  resume by cases (x.first) = (y.first)
  <> case (xc.first) = (yc.first)
  [] case (xc.first) = (yc.first)
  <> case ~((xc.first) = (yc.first))
  [] case ~((xc.first) = (yc.first))
  [] conjecture
  qed

% [a, b] <= [a, d] == b <= d
duty imply.5
  [] conjecture
  qed

% [a, b] <= [c, b] == a <= c
duty imply.6
  resume by cases a = c
  <> case ac = cc
  [] case ac = cc
  <> case ~(ac = cc)
  [] case ~(ac = cc)
  [] conjecture
  qed

% (p <= q) => ((p.first) <= (q.first))
duty imply.7
  resume by cases (p.first) = (q.first)
  <> case (pc.first) = (qc.first)
  [] case (pc.first) = (qc.first)
  <> case ~((pc.first) = (qc.first))
  [] case ~((pc.first) = (qc.first))
  [] conjecture
  qed

% (((p.first) <= (q.first)) /\ ((p.second) <= (q.second))) => (p <= q)
duty imply.8
  resume by =>
  <> implication
  [] implication
  [] conjecture
  qed

% x1 <= x2 == conv1'(x1, x2)
duty convert.1
  [] conjecture
  qed
