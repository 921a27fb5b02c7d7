ConvertedOfTwo: trait
  includes Twofold
  converts next
