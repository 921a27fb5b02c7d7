set box-checking on

% balance(pay(b, i, n), i) == balance(b, i) + n
duty imply.1
  [] conjecture
  qed

% total(transfer(b, i, j, n)) == total(b)
duty imply.2
  resume by cases n <= balance(b, i)
  <> case nc <= balance(bc, ic)
    instantiate b by bc, i by ic, n by nc in A25
  [] case nc <= balance(bc, ic)
  <> case ~(nc <= balance(bc, ic))
  [] case ~(nc <= balance(bc, ic))
  [] conjecture
  qed

% ((k ~= i) /\ (k ~= j)) => (balance(transfer(b, i, j, n), k) = balance(b, k))
duty imply.3
  resume by =>
  <> implication
    resume by cases n <= balance(b, ic)
    <> case nc <= balance(bc, ic)
    [] case nc <= balance(bc, ic)
    <> case ~(nc <= balance(bc, ic))
    [] case ~(nc <= balance(bc, ic))
  [] implication
  [] conjecture
  qed

% ((i ~= j) /\ (n <= balance(b, i))) => (balance(transfer(b, i, j, n), j) = (balance(b, j) + n))
duty imply.4
  resume by =>
  <> implication
  [] implication
  [] conjecture
  qed

% ((i ~= j) /\ (n <= balance(b, i))) => (balance(transfer(b, i, j, n), i) = (balance(b, i) - n))
duty imply.5
  resume by =>
  <> implication
  [] implication
  [] conjecture
  qed

% (~ (n <= balance(b, i))) => (transfer(b, i, j, n) = b)
duty imply.6
  resume by =>
  <> implication
  [] implication
  [] conjecture
  qed

% total(pay(pay(b, i, m), j, n)) == total(pay(pay(b, j, m), i, n))
duty imply.7
  [] conjecture
  qed

% transfer(x1, x2, x3, x4) == transfer'(x1, x2, x3, x4)
duty convert.1
  [] conjecture
  qed
