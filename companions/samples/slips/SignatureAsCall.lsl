SignatureAsCall: trait
  introduces
    new: -> Stack
    height(Stack): Count
    zero: -> Count
