TwoResults: trait
  introduces
    split: List -> List, List
    nil: -> List
