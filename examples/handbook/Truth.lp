set box-checking on

% p /\ q == q /\ p
duty imply.1
  resume by cases p
  <> case pc
  [] case pc
  <> case ~(pc)
  [] case ~(pc)
  [] conjecture
  qed

% (p /\ q) /\ r == p /\ (q /\ r)
duty imply.2
  resume by cases p
  <> case pc
  [] case pc
  <> case ~(pc)
  [] case ~(pc)
  [] conjecture
  qed

% p \/ q == q \/ p
duty imply.3
  resume by cases p
  <> case pc
  [] case pc
  <> case ~(pc)
  [] case ~(pc)
  [] conjecture
  qed

% (p \/ q) \/ r == p \/ (q \/ r)
duty imply.4
  resume by cases p
  <> case pc
  [] case pc
  <> case ~(pc)
  [] case ~(pc)
  [] conjecture
  qed

% p /\ (p \/ q) == p
duty imply.5
  resume by cases p
  <> case pc
  [] case pc
  <> case ~(pc)
  [] case ~(pc)
  [] conjecture
  qed

% p \/ (p /\ q) == p
duty imply.6
  resume by cases p
  <> case pc
  [] case pc
  <> case ~(pc)
  [] case ~(pc)
  [] conjecture
  qed

% p /\ (q \/ r) == (p /\ q) \/ (p /\ r)
duty imply.7
  resume by cases p
  <> case pc
  [] case pc
  <> case ~(pc)
  [] case ~(pc)
  [] conjecture
  qed

% p \/ (q /\ r) == (p \/ q) /\ (p \/ r)
duty imply.8
  resume by cases p
  <> case pc
  [] case pc
  <> case ~(pc)
  [] case ~(pc)
  [] conjecture
  qed

% ~ (p /\ q) == (~ p) \/ (~ q)
duty imply.9
  resume by cases p
  <> case pc
  [] case pc
  <> case ~(pc)
  [] case ~(pc)
  [] conjecture
  qed

% ~ (p \/ q) == (~ p) /\ (~ q)
duty imply.10
  resume by cases p
  <> case pc
  [] case pc
  <> case ~(pc)
  [] case ~(pc)
  [] conjecture
  qed

% p => q == (~ p) \/ q
duty imply.11
  resume by cases p
  <> case pc
  [] case pc
  <> case ~(pc)
  [] case ~(pc)
  [] conjecture
  qed

% p => q == (~ q) => (~ p)
duty imply.12
  [] conjecture
  qed

% (p /\ q) => r == p => (q => r)
duty imply.13
  resume by cases p
  <> case pc
  [] case pc
  <> case ~(pc)
  [] case ~(pc)
  [] conjecture
  qed

% p => (q /\ r) == (p => q) /\ (p => r)
duty imply.14
  [] conjecture
  qed

% (p \/ q) => r == (p => r) /\ (q => r)
duty imply.15
  resume by cases r
  <> case rc
  [] case rc
  <> case ~(rc)
  [] case ~(rc)
  [] conjecture
  qed

% ((p => q) => p) => p
duty imply.16
  resume by cases p
  <> case pc
  [] case pc
  <> case ~(pc)
  [] case ~(pc)
  [] conjecture
  qed

% (p => q) \/ (q => p)
duty imply.17
  resume by cases p
  <> case pc
  [] case pc
  <> case ~(pc)
  [] case ~(pc)
  [] conjecture
  qed

% p <=> q == (p => q) /\ (q => p)
duty imply.18
  resume by cases p
  <> case pc
  [] case pc
  <> case ~(pc)
  [] case ~(pc)
  [] conjecture
  qed

% (p <=> q) <=> r == p <=> (q <=> r)
duty imply.19
  resume by cases p
  <> case pc
    resume by cases q
    <> case qc
    [] case qc
    <> case ~(qc)
    [] case ~(qc)
  [] case pc
  <> case ~(pc)
    resume by cases q
    <> case qc1
    [] case qc1
    <> case ~(qc1)
    [] case ~(qc1)
  [] case ~(pc)
  [] conjecture
  qed

% p \xor q == q \xor p
duty imply.20
  resume by cases p
  <> case pc
  [] case pc
  <> case ~(pc)
  [] case ~(pc)
  [] conjecture
  qed

% (p \xor q) \xor r == p \xor (q \xor r)
duty imply.21
  resume by cases p
  <> case pc
    resume by cases q
    <> case qc
    [] case qc
    <> case ~(qc)
    [] case ~(qc)
  [] case pc
  <> case ~(pc)
    resume by cases q
    <> case qc1
    [] case qc1
    <> case ~(qc1)
    [] case ~(qc1)
  [] case ~(pc)
  [] conjecture
  qed

% (p \xor q) \xor q == p
duty imply.22
  resume by cases p
  <> case pc
  [] case pc
  <> case ~(pc)
  [] case ~(pc)
  [] conjecture
  qed

% p /\ (q \xor r) == (p /\ q) \xor (p /\ r)
duty imply.23
  resume by cases p
  <> case pc
  [] case pc
  <> case ~(pc)
  [] case ~(pc)
  [] conjecture
  qed

% majority(p, q, r) == ((p \/ q) /\ (q \/ r)) /\ (r \/ p)
duty imply.24
  resume by cases p
  <> case pc
    resume by cases q
    <> case qc
    [] case qc
    <> case ~(qc)
    [] case ~(qc)
  [] case pc
  <> case ~(pc)
    resume by cases q
    <> case qc1
    [] case qc1
    <> case ~(qc1)
    [] case ~(qc1)
  [] case ~(pc)
  [] conjecture
  qed

% majority(p, q, r) == majority(q, p, r)
duty imply.25
  resume by cases p
  <> case pc
    resume by cases q
    <> case qc
    [] case qc
    <> case ~(qc)
    [] case ~(qc)
  [] case pc
  <> case ~(pc)
    resume by cases q
    <> case qc1
    [] case qc1
    <> case ~(qc1)
    [] case ~(qc1)
  [] case ~(pc)
  [] conjecture
  qed

% ~ majority(p, q, r) == majority(~ p, ~ q, ~ r)
duty imply.26
  resume by cases p
  <> case pc
    resume by cases q
    <> case qc
    [] case qc
    <> case ~(qc)
    [] case ~(qc)
  [] case pc
  <> case ~(pc)
    resume by cases q
    <> case qc1
    [] case qc1
    <> case ~(qc1)
    [] case ~(qc1)
  [] case ~(pc)
  [] conjecture
  qed

% ~ p == p \nand p
duty imply.27
  [] conjecture
  qed

% p /\ q == (p \nand q) \nand (p \nand q)
duty imply.28
  [] conjecture
  qed

% p \/ q == (p \nand p) \nand (q \nand q)
duty imply.29
  resume by cases p
  <> case pc
  [] case pc
  <> case ~(pc)
  [] case ~(pc)
  [] conjecture
  qed

% x1 \xor x2 == conv1'(x1, x2)
duty convert.1
  [] conjecture
  qed

% majority(x1, x2, x3) == majority'(x1, x2, x3)
duty convert.2
  [] conjecture
  qed

% x1 \nand x2 == conv3'(x1, x2)
duty convert.3
  [] conjecture
  qed
