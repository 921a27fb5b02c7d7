IntroducesBehindAsserts: trait
  introduces
    low: -> Level
  asserts
    low == low
  introduces
    raise: Level -> Level
  assumes Number
