% Two monoids on two sorts, with the same names: what is meant is told by the sorts.
Morphism (A, B): trait
  includes Monoid (A), Monoid (B)
  introduces
    image: A -> B
  asserts
    \forall x, y: A
      image(x * y) == image(x) * image(y);
      image(unit) == unit
  implies
    \forall y: B
      % Here they don't tell it, but for the sort behind the first unit.
      unit: A * unit == unit;
      image(unit) * y == y
  % Behind converts a signature says which one is meant.
  converts unit: -> A
  converts unit: -> B
