CommentWithDashes: trait
  introduces
    -- numbers
    zero: -> Num
    next: Num -> Num
