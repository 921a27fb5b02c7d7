% Functions from elements to elements, as things that can be put one behind the other.
% Source: A. Cayley (1854); Guttag and Horning (1993), appendix A ("ComposeMaps").
% Surprising: that they form a monoid needs no induction, only that a function is what it does.
Transformation (E, F): trait
  introduces
    __[__]: F, E -> E
    same: -> F
    __ * __: F, F -> F
    constant: E -> F
    square: F -> F
  asserts
    F partitioned by __[__]
    \forall x, y: E, f, g: F
      same[x] == x;
      (f * g)[x] == f[g[x]];
      constant(y)[x] == y;
      square(f) == f * f
  implies Monoid (F, same for unit)
    \forall x, y: E, f, g, h: F
      constant(x) * f == constant(x);
      f * constant(x) == constant(f[x]);
      square(constant(x)) == constant(x);
      square(same) == same;
      square(f)[x] == f[f[x]];
      square(square(f)) == f * (f * (f * f));
      constant(x) = constant(y) == x = y;
      (f * g) = same => (g * (f * (g * f))) = (g * f)
  converts same, *, constant, square
