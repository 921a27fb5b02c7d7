FormalsInBrackets [E, P]: trait
  introduces
    first: P -> E
