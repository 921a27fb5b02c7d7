set box-checking on

% min(x, y) <= x
duty imply.1
  resume by cases x <= y
  <> case xc <= yc
  [] case xc <= yc
  <> case ~(xc <= yc)
    instantiate x by yc, y by xc in A4
  [] case ~(xc <= yc)
  [] conjecture
  qed

% min(x, y) <= y
duty imply.2
  resume by cases x <= y
  <> case xc <= yc
  [] case xc <= yc
  <> case ~(xc <= yc)
  [] case ~(xc <= yc)
  [] conjecture
  qed

% x <= max(x, y)
duty imply.3
  resume by cases x <= y
  <> case xc <= yc
  [] case xc <= yc
  <> case ~(xc <= yc)
  [] case ~(xc <= yc)
  [] conjecture
  qed

% y <= max(x, y)
duty imply.4
  resume by cases x <= y
  <> case xc <= yc
  [] case xc <= yc
  <> case ~(xc <= yc)
    instantiate x by yc, y by xc in A4
  [] case ~(xc <= yc)
  [] conjecture
  qed

% z <= min(x, y) == (z <= x) /\ (z <= y)
duty imply.5
  resume by cases z <= (if (x <= y) then x else y)
  <> case zc <= (if (xc <= yc) then xc else yc)
    instantiate x by zc, y by if (xc <= yc) then xc else yc, z by xc in A2
    instantiate x by zc, y by if (xc <= yc) then xc else yc, z by yc in A2
  [] case zc <= (if (xc <= yc) then xc else yc)
  <> case ~(zc <= (if (xc <= yc) then xc else yc))
    resume by cases xc <= yc
    <> case xc <= yc
      normalize H2
    [] case xc <= yc
    <> case ~(xc <= yc)
      normalize H2
    [] case ~(xc <= yc)
  [] case ~(zc <= (if (xc <= yc) then xc else yc))
  [] conjecture
  qed

% max(x, y) <= z == (x <= z) /\ (y <= z)
duty imply.6
  resume by cases (if (x <= y) then y else x) <= z
  <> case (if (xc <= yc) then yc else xc) <= zc
    instantiate x by xc, y by if (xc <= yc) then yc else xc, z by zc in A2
    instantiate x by yc, y by if (xc <= yc) then yc else xc, z by zc in A2
  [] case (if (xc <= yc) then yc else xc) <= zc
  <> case ~((if (xc <= yc) then yc else xc) <= zc)
    resume by cases xc <= yc
    <> case xc <= yc
      normalize H2
    [] case xc <= yc
    <> case ~(xc <= yc)
      normalize H2
    [] case ~(xc <= yc)
  [] case ~((if (xc <= yc) then yc else xc) <= zc)
  [] conjecture
  qed

% min(x, x) == x
duty imply.7
  [] conjecture
  qed

% max(x, x) == x
duty imply.8
  [] conjecture
  qed

% min(x, y) == min(y, x)
duty imply.9
  instantiate x by if (x <= y) then x else y, y by if (y <= x) then y else x in A3
  [] conjecture
  qed

% max(x, y) == max(y, x)
duty imply.10
  instantiate x by if (x <= y) then y else x, y by if (y <= x) then x else y in A3
  [] conjecture
  qed

% min(x, min(y, z)) == min(min(x, y), z)
duty imply.11
  resume by cases x <= y
  <> case xc <= yc
    resume by cases xc <= z
    <> case xc <= zc
    [] case xc <= zc
    <> case ~(xc <= zc)
      instantiate x by xc, y by yc, z by zc in A2
    [] case ~(xc <= zc)
  [] case xc <= yc
  <> case ~(xc <= yc)
  [] case ~(xc <= yc)
  [] conjecture
  qed

% max(x, max(y, z)) == max(max(x, y), z)
duty imply.12
  resume by cases y <= z
  <> case yc <= zc
    resume by cases x <= zc
    <> case xc <= zc
    [] case xc <= zc
    <> case ~(xc <= zc)
      instantiate x by xc, y by yc, z by zc in A2
    [] case ~(xc <= zc)
  [] case yc <= zc
  <> case ~(yc <= zc)
  [] case ~(yc <= zc)
  [] conjecture
  qed

% min(x, max(x, y)) == x
duty imply.13
  [] conjecture
  qed

% max(x, min(x, y)) == x
duty imply.14
  resume by cases x <= y
  <> case xc <= yc
  [] case xc <= yc
  <> case ~(xc <= yc)
  [] case ~(xc <= yc)
  [] conjecture
  qed

% min(x, max(y, z)) == max(min(x, y), min(x, z))
duty imply.15
  resume by cases y <= z
  <> case yc <= zc
    instantiate x by if (x <= yc) then x else yc, y by yc, z by zc in A2
  [] case yc <= zc
  <> case ~(yc <= zc)
    resume by cases x <= yc
    <> case xc <= yc
    [] case xc <= yc
    <> case ~(xc <= yc)
    [] case ~(xc <= yc)
  [] case ~(yc <= zc)
  [] conjecture
  qed

% max(x, min(y, z)) == min(max(x, y), max(x, z))
duty imply.16
  resume by cases x <= y
  <> case xc <= yc
    resume by cases xc <= z
    <> case xc <= zc
    [] case xc <= zc
    <> case ~(xc <= zc)
      instantiate x by yc, y by xc in L9
    [] case ~(xc <= zc)
  [] case xc <= yc
  <> case ~(xc <= yc)
    resume by cases yc <= (if (xc <= z) then z else xc)
    <> case yc <= (if (xc <= zc1) then zc1 else xc)
    [] case yc <= (if (xc <= zc1) then zc1 else xc)
    <> case ~(yc <= (if (xc <= zc1) then zc1 else xc))
      instantiate x by yc, y by if (xc <= zc1) then zc1 else xc in A4
    [] case ~(yc <= (if (xc <= zc1) then zc1 else xc))
  [] case ~(xc <= yc)
  [] conjecture
  qed

% x <= y == min(x, y) = x
duty imply.17
  resume by cases x <= y
  <> case xc <= yc
  [] case xc <= yc
  <> case ~(xc <= yc)
    resume by cases yc = xc
    <> case yc = xc
      normalize H2
    [] case yc = xc
    <> case ~(yc = xc)
    [] case ~(yc = xc)
  [] case ~(xc <= yc)
  [] conjecture
  qed

% min(x1, x2) == min'(x1, x2)
duty convert.1
  [] conjecture
  qed

% max(x1, x2) == max'(x1, x2)
duty convert.2
  [] conjecture
  qed
