ReplacedTwice: trait
  includes Number (Nat for Num, Int for Num)
