% A form has as many places as there are sorts before the arrow.
Markers: trait
  introduces
    __ < __: T -> Bool
  asserts
    \forall x: T
      ~(x < x)
