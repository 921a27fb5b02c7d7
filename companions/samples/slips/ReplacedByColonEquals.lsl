ReplacedByColonEquals: trait
  includes Number(Num := Nat)
