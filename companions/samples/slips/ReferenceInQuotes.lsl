ReferenceInQuotes: trait
  includes "Number"
  introduces
    low: -> Num
