set box-checking on

% e * (reduce(k) * reduce(l)) == reduce(k) * (e * reduce(l))
duty imply.1
  resume by contradiction
  <> contradiction
    instantiate x by ec, y by reduce(lc) in A4
    instantiate x by ec, y by reduce(kc) * reduce(lc) in A4
  [] contradiction
  [] conjecture
  qed

% reduce(k ++ l) == reduce(k) * reduce(l)
duty imply.2
  resume by induction on k
  <> basis nil
  [] basis nil
  <> step cons(ac, kc)
  [] step cons(ac, kc)
  [] conjecture
  qed

% reduce(k ++ l) == reduce(l ++ k)
duty imply.3
  [] conjecture
  qed

% reduce(reverse(l)) == reduce(l)
duty imply.4
  resume by induction on l
  <> basis nil
  [] basis nil
  <> step cons(ac, lc)
  [] step cons(ac, lc)
  [] conjecture
  qed

% reduce(k ++ cons(e, l)) == e * reduce(k ++ l)
duty imply.5
  [] conjecture
  qed
