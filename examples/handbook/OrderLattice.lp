set box-checking on

% min(min(x, y), z) == min(x, min(y, z))
duty imply.1
  resume by cases x <= y
  <> case xc <= yc
    resume by cases yc <= z
    <> case yc <= zc
      instantiate x by xc, y by yc, z by zc in A2
    [] case yc <= zc
    <> case ~(yc <= zc)
    [] case ~(yc <= zc)
  [] case xc <= yc
  <> case ~(xc <= yc)
    resume by cases yc <= z
    <> case yc <= zc1
    [] case yc <= zc1
    <> case ~(yc <= zc1)
      instantiate x by yc, y by zc1 in A4
      instantiate x by xc, y by zc1, z by yc in A2
    [] case ~(yc <= zc1)
  [] case ~(xc <= yc)
  [] conjecture
  qed

% max(max(x, y), z) == max(x, max(y, z))
duty imply.2
  resume by cases x <= y
  <> case xc <= yc
    resume by cases yc <= z
    <> case yc <= zc
      instantiate x by xc, y by yc, z by zc in A2
    [] case yc <= zc
    <> case ~(yc <= zc)
    [] case ~(yc <= zc)
  [] case xc <= yc
  <> case ~(xc <= yc)
    resume by cases xc <= z
    <> case xc <= zc1
      instantiate x by xc, y by zc1, z by yc in A2
      instantiate x by yc, y by zc1 in A4
    [] case xc <= zc1
    <> case ~(xc <= zc1)
      resume by cases yc <= zc1
      <> case yc <= zc1
      [] case yc <= zc1
      <> case ~(yc <= zc1)
      [] case ~(yc <= zc1)
    [] case ~(xc <= zc1)
  [] case ~(xc <= yc)
  [] conjecture
  qed

% min(x, y) == min(y, x)
duty imply.3
  resume by cases x <= y
  <> case xc <= yc
    resume by cases yc <= xc
    <> case yc <= xc
      instantiate x by xc, y by yc in A3
    [] case yc <= xc
    <> case ~(yc <= xc)
    [] case ~(yc <= xc)
  [] case xc <= yc
  <> case ~(xc <= yc)
    instantiate x by xc, y by yc in A4
  [] case ~(xc <= yc)
  [] conjecture
  qed

% max(x, y) == max(y, x)
duty imply.4
  resume by cases x <= y
  <> case xc <= yc
    resume by cases yc <= xc
    <> case yc <= xc
      instantiate x by yc, y by xc in A3
    [] case yc <= xc
    <> case ~(yc <= xc)
    [] case ~(yc <= xc)
  [] case xc <= yc
  <> case ~(xc <= yc)
    instantiate x by xc, y by yc in A4
  [] case ~(xc <= yc)
  [] conjecture
  qed

% min(x, max(x, y)) == x
duty imply.5
  resume by cases x <= y
  <> case xc <= yc
  [] case xc <= yc
  <> case ~(xc <= yc)
  [] case ~(xc <= yc)
  [] conjecture
  qed

% max(x, min(x, y)) == x
duty imply.6
  resume by cases x <= y
  <> case xc <= yc
  [] case xc <= yc
  <> case ~(xc <= yc)
  [] case ~(xc <= yc)
  [] conjecture
  qed

% x <= y == min(x, y) = x
duty imply.7
  resume by cases x <= y
  <> case xc <= yc
  [] case xc <= yc
  <> case ~(xc <= yc)
    resume by cases yc = xc
    <> case yc = xc
      normalize H2
    [] case yc = xc
    <> case ~(yc = xc)
    [] case ~(yc = xc)
  [] case ~(xc <= yc)
  [] conjecture
  qed

% min(x, max(y, z)) == max(min(x, y), min(x, z))
duty imply.8
  resume by cases y <= z
  <> case yc <= zc
    resume by cases x <= zc
    <> case xc <= zc
      resume by cases xc <= yc
      <> case xc <= yc
      [] case xc <= yc
      <> case ~(xc <= yc)
        instantiate x by yc, y by xc in A4
      [] case ~(xc <= yc)
    [] case xc <= zc
    <> case ~(xc <= zc)
      instantiate x by xc, y by yc, z by zc in A2
    [] case ~(xc <= zc)
  [] case yc <= zc
  <> case ~(yc <= zc)
    resume by cases x <= yc
    <> case xc1 <= yc
    [] case xc1 <= yc
    <> case ~(xc1 <= yc)
      resume by cases xc1 <= zc
      <> case xc1 <= zc
        instantiate x by yc, y by xc1, z by zc in A2
      [] case xc1 <= zc
      <> case ~(xc1 <= zc)
      [] case ~(xc1 <= zc)
    [] case ~(xc1 <= yc)
  [] case ~(yc <= zc)
  [] conjecture
  qed

% (min(x, y) = x) \/ (min(x, y) = y)
duty imply.9
  resume by cases x <= y
  <> case xc <= yc
  [] case xc <= yc
  <> case ~(xc <= yc)
  [] case ~(xc <= yc)
  [] conjecture
  qed

% ((z <= x) /\ (z <= y)) => (z <= min(x, y))
duty imply.10
  resume by cases x <= y
  <> case xc <= yc
    resume by cases z <= xc
    <> case zc <= xc
    [] case zc <= xc
    <> case ~(zc <= xc)
    [] case ~(zc <= xc)
  [] case xc <= yc
  <> case ~(xc <= yc)
    resume by cases z <= xc
    <> case zc1 <= xc
    [] case zc1 <= xc
    <> case ~(zc1 <= xc)
    [] case ~(zc1 <= xc)
  [] case ~(xc <= yc)
  [] conjecture
  qed
