GeneratedTypo: trait
  introduces
    none: -> Line
    join: Line, Person -> Line
    head: Line -> Person
    rest: Line -> Line
    long: Line -> Count
    waits: Person, Line -> Bool
    0: -> Count
    s: Count -> Count
    __ + __: Count, Count -> Count
    __ <= __: Count, Count -> Bool
  asserts
    Line genrated by none, join
    \forall l: Line, p, q: Person, n: Count
      long(none) == 0
