AssumesMisspelt: trait
  asumes Number
  introduces
    one: -> Num
