RoundB: trait
  assumes RoundC
