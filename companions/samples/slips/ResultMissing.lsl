ResultMissing: trait
  introduces
    new: ->
    push: Stack, Item -> Stack
