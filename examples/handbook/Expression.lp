declare variables x, y, z: N
set box-checking on

% 0 + n == n
duty imply.1
  resume by induction on n
  <> basis 0
  [] basis 0
  <> step s(nc)
  [] step s(nc)
  [] conjecture
  qed

% 0 * n == 0
duty imply.2
  resume by induction on n
  <> basis 0
  [] basis 0
  <> step s(nc)
  [] step s(nc)
  [] conjecture
  qed

% const(m) = const(n) == m = n
duty imply.3
  resume by cases const(m) = const(n)
  <> case const(mc) = const(nc)
    critical-pairs A12 with H1
  [] case const(mc) = const(nc)
  <> case ~(const(mc) = const(nc))
    resume by cases mc = nc
    <> case mc = nc
      normalize H2
    [] case mc = nc
    <> case ~(mc = nc)
    [] case ~(mc = nc)
  [] case ~(const(mc) = const(nc))
  [] conjecture
  qed

% put(v, i, v[i]) == v
duty imply.4
  resume by partition
  <> observer
    resume by cases i = ac
    <> case ic = ac
    [] case ic = ac
    <> case ~(ic = ac)
    [] case ~(ic = ac)
  [] observer
  [] conjecture
  qed

% put(put(v, i, m), i, n) == put(v, i, n)
duty imply.5
  resume by partition
  <> observer
    resume by cases i = ac
    <> case ic = ac
    [] case ic = ac
    <> case ~(ic = ac)
    [] case ~(ic = ac)
  [] observer
  [] conjecture
  qed

% eval(simpleSum(d, e), v) == eval(d, v) + eval(e, v)
duty imply.6
  resume by cases d = const(0)
  <> case dc = const(0)
    resume by contradiction
    <> contradiction
      critical-pairs A12 with H1
      normalize H2
    [] contradiction
  [] case dc = const(0)
  <> case ~(dc = const(0))
    resume by cases e = const(0)
    <> case ec1 = const(0)
      critical-pairs A12 with H4
    [] case ec1 = const(0)
    <> case ~(ec1 = const(0))
    [] case ~(ec1 = const(0))
  [] case ~(dc = const(0))
  [] conjecture
  qed

% eval(simpleProduct(d, e), v) == eval(d, v) * eval(e, v)
duty imply.7
  resume by cases d = const(0)
  <> case dc = const(0)
    resume by contradiction
    <> contradiction
      critical-pairs A12 with H1
      normalize H2
    [] contradiction
  [] case dc = const(0)
  <> case ~(dc = const(0))
    resume by cases e = const(0)
    <> case ec1 = const(0)
      critical-pairs A12 with H4
    [] case ec1 = const(0)
    <> case ~(ec1 = const(0))
    [] case ~(ec1 = const(0))
  [] case ~(dc = const(0))
  [] conjecture
  qed

% eval(simplify(e), v) == eval(e, v)
duty imply.8
  resume by induction on e
  <> basis const(ac)
  [] basis const(ac)
  <> basis name(ac1)
  [] basis name(ac1)
  <> step sum(ec, ec1)
  [] step sum(ec, ec1)
  <> step product(ec2, ec3)
  [] step product(ec2, ec3)
  [] conjecture
  qed

% eval(substitute(d, i, e), v) == eval(d, put(v, i, eval(e, v)))
duty imply.9
  resume by induction on d
  <> basis const(ac)
  [] basis const(ac)
  <> basis name(ac1)
    resume by cases i = ac1
    <> case ic = ac1
    [] case ic = ac1
    <> case ~(ic = ac1)
    [] case ~(ic = ac1)
  [] basis name(ac1)
  <> step sum(dc, dc1)
  [] step sum(dc, dc1)
  <> step product(dc2, dc3)
  [] step product(dc2, dc3)
  [] conjecture
  qed

% substitute(e, i, name(i)) == e
duty imply.10
  resume by induction on e
  <> basis const(ac)
  [] basis const(ac)
  <> basis name(ac1)
    resume by cases i = ac1
    <> case ic = ac1
    [] case ic = ac1
    <> case ~(ic = ac1)
    [] case ~(ic = ac1)
  [] basis name(ac1)
  <> step sum(ec, ec1)
  [] step sum(ec, ec1)
  <> step product(ec2, ec3)
  [] step product(ec2, ec3)
  [] conjecture
  qed

% eval(substitute(simplify(d), i, e), v) == eval(substitute(d, i, e), v)
duty imply.11
  [] conjecture
  qed

% eval(x1, x2) == eval'(x1, x2)
duty convert.1
  resume by induction on x1
  <> basis const(ac)
  [] basis const(ac)
  <> basis name(ac1)
  [] basis name(ac1)
  <> step sum(x1c, x1c1)
  [] step sum(x1c, x1c1)
  <> step product(x1c2, x1c3)
  [] step product(x1c2, x1c3)
  [] conjecture
  qed

% simpleSum(x1, x2) == simpleSum'(x1, x2)
duty convert.2
  [] conjecture
  qed

% simpleProduct(x1, x2) == simpleProduct'(x1, x2)
duty convert.3
  [] conjecture
  qed

% simplify(x1) == simplify'(x1)
duty convert.4
  resume by induction on x1
  <> basis const(ac)
  [] basis const(ac)
  <> basis name(ac1)
  [] basis name(ac1)
  <> step sum(x1c, x1c1)
  [] step sum(x1c, x1c1)
  <> step product(x1c2, x1c3)
  [] step product(x1c2, x1c3)
  [] conjecture
  qed

% substitute(x1, x2, x3) == substitute'(x1, x2, x3)
duty convert.5
  resume by induction on x1
  <> basis const(ac)
  [] basis const(ac)
  <> basis name(ac1)
  [] basis name(ac1)
  <> step sum(x1c, x1c1)
  [] step sum(x1c, x1c1)
  <> step product(x1c2, x1c3)
  [] step product(x1c2, x1c3)
  [] conjecture
  qed
