QuestionInName: trait
  introduces
    new: -> Stack
    empty?: Stack -> Bool
  asserts
    empty?(new)
