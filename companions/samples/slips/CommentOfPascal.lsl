CommentOfPascal: trait
  (* stacks of items *)
  introduces
    new: -> Stack
