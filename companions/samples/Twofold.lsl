Twofold: trait
  introduces
    unit: -> Num
    unit: -> Text
    next: Num -> Num
    next: Text -> Num
