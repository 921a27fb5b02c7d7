declare variables x, y, z: N
set box-checking on

% s(m) + n == s(m + n)
duty imply.1
  resume by induction on n
  <> basis 0
  [] basis 0
  <> step s(nc)
  [] step s(nc)
  [] conjecture
  qed

% 0 + n == n
duty imply.2
  resume by induction on n
  <> basis 0
  [] basis 0
  <> step s(nc)
  [] step s(nc)
  [] conjecture
  qed

% m + n == n + m
duty imply.3
  resume by induction on m
  <> basis 0
  [] basis 0
  <> step s(mc)
  [] step s(mc)
  [] conjecture
  qed

% push(m, t) = push(n, t) == m = n
duty imply.4
  resume by cases push(m, t) = push(n, t)
  <> case push(mc, tc) = push(nc, tc)
    critical-pairs A45 with H1
  [] case push(mc, tc) = push(nc, tc)
  <> case ~(push(mc, tc) = push(nc, tc))
    resume by cases mc = nc
    <> case mc = nc
      normalize H2
    [] case mc = nc
    <> case ~(mc = nc)
    [] case ~(mc = nc)
  [] case ~(push(mc, tc) = push(nc, tc))
  [] conjecture
  qed

% isEmpty(p ++ q) == isEmpty(p) /\ isEmpty(q)
duty imply.5
  resume by induction on p
  <> basis nil
  [] basis nil
  <> step cons(ac, pc)
  [] step cons(ac, pc)
  [] conjecture
  qed

% run(p ++ q, t, v) == run(q, run(p, t, v), v)
duty imply.6
  resume by induction on p
  <> basis nil
  [] basis nil
  <> step cons(ac, pc)
  [] step cons(ac, pc)
  [] conjecture
  qed

% run(compile(e), t, v) == push(eval(e, v), t)
duty imply.7
  resume by induction on e
  <> basis const(ac)
  [] basis const(ac)
  <> basis name(ac1)
  [] basis name(ac1)
  <> step sum(ec, ec1)
  [] step sum(ec, ec1)
  <> step product(ec2, ec3)
  [] step product(ec2, ec3)
  [] conjecture
  qed

% run(compile(e) ++ p, t, v) == run(p, push(eval(e, v), t), v)
duty imply.8
  [] conjecture
  qed

% top(run(compile(e), empty, v)) == eval(e, v)
duty imply.9
  [] conjecture
  qed

% run(compile(sum(d, e)), t, v) == run(compile(sum(e, d)), t, v)
duty imply.10
  [] conjecture
  qed

% length(p ++ q) == length(p) + length(q)
duty imply.11
  resume by induction on p
  <> basis nil
  [] basis nil
  <> step cons(ac, pc)
  [] step cons(ac, pc)
  [] conjecture
  qed

% length(compile(e)) == size(e)
duty imply.12
  resume by induction on e
  <> basis const(ac)
  [] basis const(ac)
  <> basis name(ac1)
  [] basis name(ac1)
  <> step sum(ec, ec1)
  [] step sum(ec, ec1)
  <> step product(ec2, ec3)
  [] step product(ec2, ec3)
  [] conjecture
  qed

% ~ isEmpty(compile(e))
duty imply.13
  resume by induction on e
  <> basis const(ac)
  [] basis const(ac)
  <> basis name(ac1)
  [] basis name(ac1)
  <> step sum(ec, ec1)
  [] step sum(ec, ec1)
  <> step product(ec2, ec3)
  [] step product(ec2, ec3)
  [] conjecture
  qed

% run(x1, x2, x3) == run'(x1, x2, x3)
duty convert.1
  resume by induction on x1
  <> basis nil
  [] basis nil
  <> step cons(ac, x1c)
  [] step cons(ac, x1c)
  [] conjecture
  qed

% compile(x1) == compile'(x1)
duty convert.2
  resume by induction on x1
  <> basis const(ac)
  [] basis const(ac)
  <> basis name(ac1)
  [] basis name(ac1)
  <> step sum(x1c, x1c1)
  [] step sum(x1c, x1c1)
  <> step product(x1c2, x1c3)
  [] step product(x1c2, x1c3)
  [] conjecture
  qed

% size(x1) == size'(x1)
duty convert.3
  resume by induction on x1
  <> basis const(ac)
  [] basis const(ac)
  <> basis name(ac1)
  [] basis name(ac1)
  <> step sum(x1c, x1c1)
  [] step sum(x1c, x1c1)
  <> step product(x1c2, x1c3)
  [] step product(x1c2, x1c3)
  [] conjecture
  qed
