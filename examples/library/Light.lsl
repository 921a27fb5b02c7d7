% A traffic light, which shows one colour after the other.
Light: trait
  Colour enumeration of red, green, amber
  introduces
    next: Colour -> Colour
    mayGo: Colour -> Bool
  asserts
    \forall c: Colour
      next(c) == if c = amber then red else succ(c);
      mayGo(c) == c = green
