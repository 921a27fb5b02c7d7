HeadWithoutColon trait
  introduces
    zero: -> Num
