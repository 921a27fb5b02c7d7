set box-checking on

% put(m, k, v)[k] == v
duty imply.1
  [] conjecture
  qed

% put(put(m, k, v), k, w) == put(m, k, w)
duty imply.2
  resume by partition
  <> observer 1
    resume by cases ac = k
    <> case ac = kc
    [] case ac = kc
    <> case ~(ac = kc)
    [] case ~(ac = kc)
  [] observer 1
  <> observer 2
    resume by cases ac1 = k
    <> case ac1 = kc1
    [] case ac1 = kc1
    <> case ~(ac1 = kc1)
    [] case ~(ac1 = kc1)
  [] observer 2
  [] conjecture
  qed

% (i ~= k) => (put(put(m, i, v), k, w) = put(put(m, k, w), i, v))
duty imply.3
  resume by =>
  <> implication
    resume by partition
    <> observer 1
      resume by cases ac = kc
      <> case ac = kc
        normalize H1
      [] case ac = kc
      <> case ~(ac = kc)
      [] case ~(ac = kc)
    [] observer 1
    <> observer 2
      resume by cases ac1 = kc
      <> case ac1 = kc
      [] case ac1 = kc
      <> case ~(ac1 = kc)
      [] case ~(ac1 = kc)
    [] observer 2
  [] implication
  [] conjecture
  qed

% defined(m, k) => (put(m, k, m[k]) = m)
duty imply.4
  resume by =>
  <> implication
    resume by partition
    <> observer 1
      resume by cases ac = kc
      <> case ac = kc
      [] case ac = kc
      <> case ~(ac = kc)
      [] case ~(ac = kc)
    [] observer 1
    <> observer 2
      resume by cases ac1 = kc
      <> case ac1 = kc
        normalize H1
      [] case ac1 = kc
      <> case ~(ac1 = kc)
      [] case ~(ac1 = kc)
    [] observer 2
  [] implication
  [] conjecture
  qed

% put(m, k, v) ~= {}
duty imply.5
  resume by cases put(m, k, v) = {}
  <> case put(mc, kc, vc) = {}
    critical-pairs A5 with H1
    instantiate v1 by kc in D1
  [] case put(mc, kc, vc) = {}
  <> case ~(put(mc, kc, vc) = {})
  [] case ~(put(mc, kc, vc) = {})
  [] conjecture
  qed

% ~ defined(remove(m, k), k)
duty imply.6
  [] conjecture
  qed

% remove({}, k) == {}
duty imply.7
  resume by partition
  <> observer 1
  [] observer 1
  <> observer 2
  [] observer 2
  [] conjecture
  qed

% remove(put(m, k, v), k) == remove(m, k)
duty imply.8
  resume by partition
  <> observer 1
    resume by cases ac = k
    <> case ac = kc
    [] case ac = kc
    <> case ~(ac = kc)
    [] case ~(ac = kc)
  [] observer 1
  <> observer 2
    resume by cases ac1 = k
    <> case ac1 = kc1
    [] case ac1 = kc1
    <> case ~(ac1 = kc1)
    [] case ~(ac1 = kc1)
  [] observer 2
  [] conjecture
  qed

% (i ~= k) => (remove(put(m, i, v), k) = put(remove(m, k), i, v))
duty imply.9
  resume by =>
  <> implication
    resume by partition
    <> observer 1
      resume by cases ac = kc
      <> case ac = kc
        normalize H1
      [] case ac = kc
      <> case ~(ac = kc)
      [] case ~(ac = kc)
    [] observer 1
    <> observer 2
      resume by cases ac1 = kc
      <> case ac1 = kc
        normalize H1
      [] case ac1 = kc
      <> case ~(ac1 = kc)
      [] case ~(ac1 = kc)
    [] observer 2
  [] implication
  [] conjecture
  qed

% put(remove(m, k), k, v) == put(m, k, v)
duty imply.10
  resume by partition
  <> observer 1
    resume by cases ac = k
    <> case ac = kc
    [] case ac = kc
    <> case ~(ac = kc)
    [] case ~(ac = kc)
  [] observer 1
  <> observer 2
    resume by cases ac1 = k
    <> case ac1 = kc1
    [] case ac1 = kc1
    <> case ~(ac1 = kc1)
    [] case ~(ac1 = kc1)
  [] observer 2
  [] conjecture
  qed

% remove(remove(m, i), k) == remove(remove(m, k), i)
duty imply.11
  resume by partition
  <> observer 1
    resume by cases ac = k
    <> case ac = kc
    [] case ac = kc
    <> case ~(ac = kc)
    [] case ~(ac = kc)
  [] observer 1
  <> observer 2
    resume by cases ac1 = k
    <> case ac1 = kc1
    [] case ac1 = kc1
    <> case ~(ac1 = kc1)
    [] case ~(ac1 = kc1)
  [] observer 2
  [] conjecture
  qed

% (~ defined(m, k)) => ((m[k]) = ({}[k]))
duty imply.12
  resume by induction on m
  <> basis {}
  [] basis {}
  <> step put(mc, ac, ac1)
    resume by =>
    <> implication
      instantiate k by kc in H1
    [] implication
  [] step put(mc, ac, ac1)
  [] conjecture
  qed

% (~ defined(m, k)) => (remove(m, k) = m)
duty imply.13
  resume by =>
  <> implication
    resume by partition
    <> observer 1
      resume by cases ac = kc
      <> case ac = kc
        normalize H1
        instantiate m by mc, k by ac in L12
      [] case ac = kc
      <> case ~(ac = kc)
      [] case ~(ac = kc)
    [] observer 1
    <> observer 2
      resume by cases ac1 = kc
      <> case ac1 = kc
        normalize H1
      [] case ac1 = kc
      <> case ~(ac1 = kc)
      [] case ~(ac1 = kc)
    [] observer 2
  [] implication
  [] conjecture
  qed

% m ++ {} == m
duty imply.14
  resume by partition
  <> observer 1
  [] observer 1
  <> observer 2
  [] observer 2
  [] conjecture
  qed

% {} ++ m == m
duty imply.15
  resume by partition
  <> observer 1
    instantiate m by {}, n by m, i by ac in A8
    resume by cases defined(m, ac)
    <> case defined(mc, ac)
    [] case defined(mc, ac)
    <> case ~(defined(mc, ac))
      instantiate m by mc, k by ac in L12
    [] case ~(defined(mc, ac))
  [] observer 1
  <> observer 2
  [] observer 2
  [] conjecture
  qed

% m ++ m == m
duty imply.16
  resume by partition
  <> observer 1
  [] observer 1
  <> observer 2
  [] observer 2
  [] conjecture
  qed

% (m ++ n) ++ o == m ++ (n ++ o)
duty imply.17
  resume by partition
  <> observer 1
    resume by cases defined(o, ac)
    <> case defined(oc, ac)
    [] case defined(oc, ac)
    <> case ~(defined(oc, ac))
    [] case ~(defined(oc, ac))
  [] observer 1
  <> observer 2
    resume by cases defined(n, ac)
    <> case defined(nc, ac)
      resume by cases defined(m, ac1)
      <> case defined(mc, ac1)
      [] case defined(mc, ac1)
      <> case ~(defined(mc, ac1))
      [] case ~(defined(mc, ac1))
    [] case defined(nc, ac)
    <> case ~(defined(nc, ac))
      resume by cases defined(m, ac1)
      <> case defined(mc1, ac1)
      [] case defined(mc1, ac1)
      <> case ~(defined(mc1, ac1))
      [] case ~(defined(mc1, ac1))
    [] case ~(defined(nc, ac))
  [] observer 2
  [] conjecture
  qed

% m ++ put(n, k, v) == put(m ++ n, k, v)
duty imply.18
  resume by partition
  <> observer 1
    resume by cases ac = k
    <> case ac = kc
    [] case ac = kc
    <> case ~(ac = kc)
    [] case ~(ac = kc)
  [] observer 1
  <> observer 2
    instantiate n by put(n, kc, v), i by kc in A8
    instantiate i by ac in A8
    resume by cases defined(m, ac1)
    <> case defined(mc, ac1)
    [] case defined(mc, ac1)
    <> case ~(defined(mc, ac1))
    [] case ~(defined(mc, ac1))
  [] observer 2
  [] conjecture
  qed

% defined(n, k) => ((put(m, k, v) ++ n) = (m ++ n))
duty imply.19
  resume by =>
  <> implication
    resume by partition
    <> observer 1
      instantiate n by nc, i by ac in A8
      resume by cases ac = kc
      <> case ac = kc
        normalize H1
      [] case ac = kc
      <> case ~(ac = kc)
      [] case ~(ac = kc)
    [] observer 1
    <> observer 2
      resume by cases ac1 = kc
      <> case ac1 = kc
        normalize H1
      [] case ac1 = kc
      <> case ~(ac1 = kc)
      [] case ~(ac1 = kc)
    [] observer 2
  [] implication
  [] conjecture
  qed

% defined(x1, x2) == defined'(x1, x2)
duty convert.1
  resume by induction on x1
  <> basis {}
  [] basis {}
  <> step put(x1c, ac, ac1)
  [] step put(x1c, ac, ac1)
  [] conjecture
  qed

% remove(x1, x2) == remove'(x1, x2)
duty convert.2
  resume by partition
  <> observer 1
  [] observer 1
  <> observer 2
    normalize A14
  [] observer 2
  [] conjecture
  qed

% x1 ++ x2 == conv3'(x1, x2)
duty convert.3
  resume by partition
  <> observer 1
    instantiate m by x1, n by x2, i by ac in A15
  [] observer 1
  <> observer 2
    normalize A16
  [] observer 2
  [] conjecture
  qed
