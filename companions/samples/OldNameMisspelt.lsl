OldNameMisspelt: trait
  includes Number (succ for nxet)
