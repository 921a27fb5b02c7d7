set box-checking on

% put(a, i, v)[i] == v
duty imply.1
  [] conjecture
  qed

% put(a, i, a[i]) == a
duty imply.2
  resume by partition
  <> observer
    resume by cases i = ac
    <> case ic = ac
    [] case ic = ac
    <> case ~(ic = ac)
    [] case ~(ic = ac)
  [] observer
  [] conjecture
  qed

% put(put(a, i, v), i, w) == put(a, i, w)
duty imply.3
  resume by partition
  <> observer
    resume by cases i = ac
    <> case ic = ac
    [] case ic = ac
    <> case ~(ic = ac)
    [] case ~(ic = ac)
  [] observer
  [] conjecture
  qed

% (i ~= j) => (put(put(a, i, v), j, w) = put(put(a, j, w), i, v))
duty imply.4
  resume by =>
  <> implication
    resume by partition
    <> observer
      resume by cases jc = ac
      <> case jc = ac
        normalize H1
      [] case jc = ac
      <> case ~(jc = ac)
      [] case ~(jc = ac)
    [] observer
  [] implication
  [] conjecture
  qed

% put(new(v), i, v) == new(v)
duty imply.5
  resume by partition
  <> observer
  [] observer
  [] conjecture
  qed

% swap(a, i, i) == a
duty imply.6
  [] conjecture
  qed

% swap(a, i, j)[i] == a[j]
duty imply.7
  resume by cases j = i
  <> case jc = ic
  [] case jc = ic
  <> case ~(jc = ic)
  [] case ~(jc = ic)
  [] conjecture
  qed

% swap(a, i, j)[j] == a[i]
duty imply.8
  [] conjecture
  qed

% swap(a, i, j) == swap(a, j, i)
duty imply.9
  resume by partition
  <> observer
    resume by cases j = ac
    <> case jc = ac
    [] case jc = ac
    <> case ~(jc = ac)
    [] case ~(jc = ac)
  [] observer
  [] conjecture
  qed

% swap(swap(a, i, j), i, j) == a
duty imply.10
  resume by partition
  <> observer
    resume by cases j = ac
    <> case jc = ac
    [] case jc = ac
    <> case ~(jc = ac)
      resume by cases i = ac
      <> case ic = ac
      [] case ic = ac
      <> case ~(ic = ac)
      [] case ~(ic = ac)
    [] case ~(jc = ac)
  [] observer
  [] conjecture
  qed

% (swap(a, i, j) = swap(b, i, j)) => (a = b)
duty imply.11
  resume by =>
  <> implication
    critical-pairs A3 with H1
    resume by partition
    <> observer
      instantiate v1 by ac1 in D1
      instantiate v1 by ic in D1
      instantiate v1 by jc in D1
      resume by cases jc = ac1
      <> case jc = ac1
        normalize H1
        normalize D1
        normalize D2
        normalize D3
      [] case jc = ac1
      <> case ~(jc = ac1)
        normalize H1
        normalize D1
        normalize D2
        resume by cases ic = ac1
        <> case ic = ac1
          normalize D4
        [] case ic = ac1
        <> case ~(ic = ac1)
          normalize D11
        [] case ~(ic = ac1)
      [] case ~(jc = ac1)
    [] observer
  [] implication
  [] conjecture
  qed

% new(v) = new(w) == v = w
duty imply.12
  resume by cases new(v) = new(w)
  <> case new(vc) = new(wc)
    critical-pairs A2 with H1
  [] case new(vc) = new(wc)
  <> case ~(new(vc) = new(wc))
    resume by cases vc = wc
    <> case vc = wc
      normalize H2
    [] case vc = wc
    <> case ~(vc = wc)
    [] case ~(vc = wc)
  [] case ~(new(vc) = new(wc))
  [] conjecture
  qed

% swap(x1, x2, x3) == swap'(x1, x2, x3)
duty convert.1
  [] conjecture
  qed
