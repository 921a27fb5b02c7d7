% Where an argument stands is written with two underlines.
SingleUnderline: trait
  introduces
    0: -> N
    __ + __: N, N -> N
  asserts
    \forall x: N
      x + 0 == x
