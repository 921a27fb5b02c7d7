TwoIncludesWords: trait
  includes Number includes Twofold
  introduces
    one: -> Num
  asserts
    one == two
