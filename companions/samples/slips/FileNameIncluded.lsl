FileNameIncluded: trait
  includes Number.lsl
  introduces
    low: -> Num
