set box-checking on

% (x ++ y) ++ z == x ++ (y ++ z)
duty imply.1
  resume by induction on x
  <> basis nil
  [] basis nil
  <> step cons(ac, xc)
  [] step cons(ac, xc)
  [] conjecture
  qed

% nil ++ x == x
duty imply.2
  [] conjecture
  qed

% x ++ nil == x
duty imply.3
  resume by induction on x
  <> basis nil
  [] basis nil
  <> step cons(ac, xc)
  [] step cons(ac, xc)
  [] conjecture
  qed

% nil ~= cons(e, l)
duty imply.4
  resume by cases nil = cons(e, l)
  <> case nil = cons(ec, lc)
    critical-pairs A3 with H1
  [] case nil = cons(ec, lc)
  <> case ~(nil = cons(ec, lc))
  [] case ~(nil = cons(ec, lc))
  [] conjecture
  qed

% cons(d, k) = cons(e, l) == (d = e) /\ (k = l)
duty imply.5
  resume by cases cons(d, k) = cons(e, l)
  <> case cons(dc, kc) = cons(ec, lc)
    critical-pairs A4 with H1
    critical-pairs A5 with H1
  [] case cons(dc, kc) = cons(ec, lc)
  <> case ~(cons(dc, kc) = cons(ec, lc))
    resume by cases dc = ec
    <> case dc = ec
      normalize H2
      resume by cases kc = lc
      <> case kc = lc
        normalize D3
      [] case kc = lc
      <> case ~(kc = lc)
      [] case ~(kc = lc)
    [] case dc = ec
    <> case ~(dc = ec)
    [] case ~(dc = ec)
  [] case ~(cons(dc, kc) = cons(ec, lc))
  [] conjecture
  qed

% reverse(single(e)) == single(e)
duty imply.6
  [] conjecture
  qed

% reverse(k ++ l) == reverse(l) ++ reverse(k)
duty imply.7
  resume by induction on k
  <> basis nil
  [] basis nil
  <> step cons(ac, kc)
  [] step cons(ac, kc)
  [] conjecture
  qed

% reverse(reverse(l)) == l
duty imply.8
  resume by induction on l
  <> basis nil
  [] basis nil
  <> step cons(ac, lc)
  [] step cons(ac, lc)
  [] conjecture
  qed

% reverse(k) = reverse(l) == k = l
duty imply.9
  resume by cases reverse(k) = reverse(l)
  <> case reverse(kc) = reverse(lc)
    critical-pairs L8 with H1
  [] case reverse(kc) = reverse(lc)
  <> case ~(reverse(kc) = reverse(lc))
    resume by cases kc = lc
    <> case kc = lc
      normalize H2
    [] case kc = lc
    <> case ~(kc = lc)
    [] case ~(kc = lc)
  [] case ~(reverse(kc) = reverse(lc))
  [] conjecture
  qed

% reverse(l) = nil == l = nil
duty imply.10
  resume by induction on l
  <> basis nil
  [] basis nil
  <> step cons(ac, lc)
    resume by cases (reverse(lc) ++ cons(ac, nil)) = nil
    <> case (reverse(lc) ++ cons(ac, nil)) = nil
      critical-pairs L7 with H2
      instantiate e by ac, l by lc in L4
    [] case (reverse(lc) ++ cons(ac, nil)) = nil
    <> case ~((reverse(lc) ++ cons(ac, nil)) = nil)
    [] case ~((reverse(lc) ++ cons(ac, nil)) = nil)
  [] step cons(ac, lc)
  [] conjecture
  qed

% onto(l, k) == reverse(l) ++ k
duty imply.11
  resume by induction on l
  <> basis nil
  [] basis nil
  <> step cons(ac, lc)
  [] step cons(ac, lc)
  [] conjecture
  qed

% reverse(l) == onto(l, nil)
duty imply.12
  [] conjecture
  qed

% last(l ++ single(e)) == e
duty imply.13
  [] conjecture
  qed

% last(reverse(l)) == head(l)
duty imply.14
  [] conjecture
  qed

% isPalindrome(l ++ reverse(l))
duty imply.15
  [] conjecture
  qed

% isPalindrome(l) => isPalindrome(reverse(l))
duty imply.16
  resume by =>
  <> implication
  [] implication
  [] conjecture
  qed

% reverse(x1) == reverse'(x1)
duty convert.1
  resume by induction on x1
  <> basis nil
  [] basis nil
  <> step cons(ac, x1c)
  [] step cons(ac, x1c)
  [] conjecture
  qed

% onto(x1, x2) == onto'(x1, x2)
duty convert.2
  resume by induction on x1
  <> basis nil
  [] basis nil
  <> step cons(ac, x1c)
  [] step cons(ac, x1c)
  [] conjecture
  qed

% isPalindrome(x1) == isPalindrome'(x1)
duty convert.3
  [] conjecture
  qed
