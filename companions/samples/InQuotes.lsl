InQuotes: trait
  introduces
    none: -> Bag
    title: Bag -> Text
  asserts
    title(none) == "empty"
