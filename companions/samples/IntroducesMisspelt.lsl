IntroducesMisspelt: trait
  indroduces
    one: -> Num
    two: -> Num
