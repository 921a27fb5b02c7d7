CommaBehindLastReference: trait
  includes Number,
  introduces
    one: -> Num
