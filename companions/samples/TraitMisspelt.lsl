TraitMisspelt: trait
  includes Nubmer
