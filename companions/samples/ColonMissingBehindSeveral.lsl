ColonMissingBehindSeveral: trait
  introduces
    zero, one: -> Num
    next Num -> Num
    last: Num -> Num
