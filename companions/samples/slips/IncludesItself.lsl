IncludesItself: trait
  includes IncludesItself
  introduces
    low: -> Level
