set box-checking on

% nil ~= cons(e, l)
duty imply.1
  resume by cases nil = cons(e, l)
  <> case nil = cons(ec, lc)
    critical-pairs A3 with H1
  [] case nil = cons(ec, lc)
  <> case ~(nil = cons(ec, lc))
  [] case ~(nil = cons(ec, lc))
  [] conjecture
  qed

% cons(d, k) = cons(e, l) == (d = e) /\ (k = l)
duty imply.2
  resume by cases cons(d, k) = cons(e, l)
  <> case cons(dc, kc) = cons(ec, lc)
    critical-pairs A4 with H1
    critical-pairs A5 with H1
  [] case cons(dc, kc) = cons(ec, lc)
  <> case ~(cons(dc, kc) = cons(ec, lc))
    resume by cases dc = ec
    <> case dc = ec
      normalize H2
      resume by cases kc = lc
      <> case kc = lc
        normalize D3
      [] case kc = lc
      <> case ~(kc = lc)
      [] case ~(kc = lc)
    [] case dc = ec
    <> case ~(dc = ec)
    [] case ~(dc = ec)
  [] case ~(cons(dc, kc) = cons(ec, lc))
  [] conjecture
  qed

% isEmpty(l) == l = nil
duty imply.3
  resume by induction on l
  <> basis nil
  [] basis nil
  <> step cons(ac, lc)
  [] step cons(ac, lc)
  [] conjecture
  qed

% (~ isEmpty(l)) => (cons(head(l), tail(l)) = l)
duty imply.4
  resume by induction on l
  <> basis nil
  [] basis nil
  <> step cons(ac, lc)
  [] step cons(ac, lc)
  [] conjecture
  qed

% single(d) = single(e) == d = e
duty imply.5
  instantiate k by nil, l by nil in L2
  [] conjecture
  qed

% l ~= cons(e, l)
duty imply.6
  resume by induction on l
  <> basis nil
  [] basis nil
  <> step cons(ac, lc)
    instantiate d by ac, k by lc, l by cons(ac, lc) in L2
  [] step cons(ac, lc)
  [] conjecture
  qed

% L partitioned by isEmpty, head, tail
duty imply.7
  resume by cases lc = nil
  <> case lc = nil
    normalize H1
  [] case lc = nil
  <> case ~(lc = nil)
    instantiate l by rc in L4
    instantiate l by lc in L4
  [] case ~(lc = nil)
  [] conjecture
  qed

% isEmpty(x1) == isEmpty'(x1)
duty convert.1
  resume by induction on x1
  <> basis nil
  [] basis nil
  <> step cons(ac, x1c)
  [] step cons(ac, x1c)
  [] conjecture
  qed

% head(x1) == head'(x1)
duty convert.2
  resume by induction on x1
  <> basis nil
  [] basis nil
  <> step cons(ac, x1c)
  [] step cons(ac, x1c)
  [] conjecture
  qed

% tail(x1) == tail'(x1)
duty convert.3
  resume by induction on x1
  <> basis nil
  [] basis nil
  <> step cons(ac, x1c)
  [] step cons(ac, x1c)
  [] conjecture
  qed
