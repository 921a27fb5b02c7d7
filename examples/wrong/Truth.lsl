% The truth values are there already.
Truth: trait
  introduces
    true, false: -> Bool
    isRed: Light -> Bool
    red: -> Light
  asserts
    isRed(red) == true
