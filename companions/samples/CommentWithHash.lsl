CommentWithHash: trait
  introduces
    zero: -> Num # the least one
    next: Num -> Num
