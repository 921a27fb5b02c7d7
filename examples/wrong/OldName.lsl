% The new name stands before `for`, and the old one behind it.
OldName: trait
  includes Order (__ <= __ for __ \below __)
  introduces
    least: -> T
  asserts
    \forall x: T
      least \below x
