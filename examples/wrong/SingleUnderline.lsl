% Where an argument stands is written with two underlines.
SingleUnderline: trait
  introduces
    0: -> N
    _+_: N, N -> N
  asserts
    \forall x: N
      x + 0 == x
