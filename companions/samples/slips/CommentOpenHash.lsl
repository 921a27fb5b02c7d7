CommentOpenHash# a queue
: trait
  introduces
    a: -> A
