set box-checking on

% s(m) + n == s(m + n)
duty imply.1
  resume by induction on n
  <> basis 0
  [] basis 0
  <> step s(nc)
  [] step s(nc)
  [] conjecture
  qed

% m + n == n + m
duty imply.2
  resume by induction on m
  <> basis 0
    resume by induction on n
    <> basis 0
    [] basis 0
    <> step s(nc)
    [] step s(nc)
  [] basis 0
  <> step s(mc)
  [] step s(mc)
  [] conjecture
  qed

% 0 + n == n
duty imply.3
  resume by induction on n
  <> basis 0
  [] basis 0
  <> step s(nc)
  [] step s(nc)
  [] conjecture
  qed

% length(single(e)) == 1
duty imply.4
  [] conjecture
  qed

% length(k ++ l) == length(k) + length(l)
duty imply.5
  resume by induction on k
  <> basis nil
  [] basis nil
  <> step cons(ac, kc)
  [] step cons(ac, kc)
  [] conjecture
  qed

% length(k ++ l) == length(l ++ k)
duty imply.6
  [] conjecture
  qed

% length(reverse(l)) == length(l)
duty imply.7
  resume by induction on l
  <> basis nil
  [] basis nil
  <> step cons(ac, lc)
  [] step cons(ac, lc)
  [] conjecture
  qed

% length(l) = 0 == isEmpty(l)
duty imply.8
  resume by induction on l
  <> basis nil
  [] basis nil
  <> step cons(ac, lc)
  [] step cons(ac, lc)
  [] conjecture
  qed

% length(onto(k, l)) == length(k) + length(l)
duty imply.9
  resume by induction on k
  <> basis nil
  [] basis nil
  <> step cons(ac, kc)
  [] step cons(ac, kc)
  [] conjecture
  qed

% (~ isEmpty(l)) => (length(l) = s(length(tail(l))))
duty imply.10
  resume by induction on l
  <> basis nil
  [] basis nil
  <> step cons(ac, lc)
  [] step cons(ac, lc)
  [] conjecture
  qed

% length(x1) == length'(x1)
duty convert.1
  resume by induction on x1
  <> basis nil
  [] basis nil
  <> step cons(ac, x1c)
  [] step cons(ac, x1c)
  [] conjecture
  qed
