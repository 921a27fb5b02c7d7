declare variables a, c: A
declare variables b, d: B
set box-checking on

% x <= closure(x)
duty imply.1
  instantiate y by lower(x) in A7
  [] conjecture
  qed

% (x <= y) => (closure(x) <= closure(y))
duty imply.2
  prove lower(upper(b)) <= b
    instantiate x by upper(b), y by b in A7
  [] lemma
  prove a <= upper(lower(a))
  [] lemma
  instantiate x by a, y by lower(a) in A7
  prove (a <= c) => (lower(a) <= lower(c))
    resume by =>
    <> implication
      instantiate x by ac, y by cc, z by upper(lower(cc)) in A2
      instantiate x by ac, y by lower(cc) in A7
    [] implication
  [] lemma
  prove (b <= d) => (upper(b) <= upper(d))
    resume by =>
    <> implication
      instantiate x by lower(upper(bc)), y by bc, z by dc in A5
      instantiate x by upper(bc), y by dc in A7
    [] implication
  [] lemma
  resume by =>
  <> implication
    instantiate a by xc, c by yc in D7
    instantiate b by lower(xc), d by lower(yc) in D10
  [] implication
  [] conjecture
  qed

% closure(closure(x)) == closure(x)
duty imply.3
  prove lower(upper(b)) <= b
    instantiate x by upper(b), y by b in A7
  [] lemma
  prove a <= upper(lower(a))
  [] lemma
  instantiate x by a, y by lower(a) in A7
  prove (a <= c) => (lower(a) <= lower(c))
    resume by =>
    <> implication
      instantiate x by ac, y by cc, z by upper(lower(cc)) in A2
      instantiate x by ac, y by lower(cc) in A7
    [] implication
  [] lemma
  prove (b <= d) => (upper(b) <= upper(d))
    resume by =>
    <> implication
      instantiate x by lower(upper(bc)), y by bc, z by dc in A5
      instantiate x by upper(bc), y by dc in A7
    [] implication
  [] lemma
  instantiate b by lower(upper(lower(x))), d by lower(x) in D10
  instantiate x by upper(lower(upper(lower(x)))), y by upper(lower(x)) in A3
  [] conjecture
  qed

% x <= upper(lower(x))
duty imply.4
  [] conjecture
  qed

% lower(upper(y)) <= y
duty imply.5
  instantiate x by upper(y) in A7
  [] conjecture
  qed

% (w <= x) => (lower(w) <= lower(x))
duty imply.6
  resume by =>
  <> implication
    instantiate x by wc, y by lower(xc) in A7
    instantiate x by wc, y by xc, z by upper(lower(xc)) in A2
  [] implication
  [] conjecture
  qed

% (y <= z) => (upper(y) <= upper(z))
duty imply.7
  resume by =>
  <> implication
    instantiate x by upper(yc), y by zc in A7
    instantiate x by lower(upper(yc)), y by yc, z by zc in A5
  [] implication
  [] conjecture
  qed

% lower(upper(lower(x))) == lower(x)
duty imply.8
  instantiate x by lower(upper(lower(x))), y by lower(x) in A6
  instantiate w by x, x by upper(lower(x)) in L6
  normalize D1
  [] conjecture
  qed

% upper(lower(upper(y))) == upper(y)
duty imply.9
  instantiate x by upper(lower(upper(y))), y by upper(y) in A3
  instantiate x by upper(lower(upper(y))) in A7
  normalize D1
  [] conjecture
  qed

% closure(upper(y)) == upper(y)
duty imply.10
  [] conjecture
  qed

% closure(x1) == closure'(x1)
duty convert.1
  [] conjecture
  qed
