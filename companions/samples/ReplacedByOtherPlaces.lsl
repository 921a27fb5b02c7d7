ReplacedByOtherPlaces: trait
  includes Number (__ & __ for next)
