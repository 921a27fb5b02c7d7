% The truth values are there already.
Truth: trait
  introduces
    isRed: Light -> Bool
    red: -> Light
  asserts
    isRed(red) == true
