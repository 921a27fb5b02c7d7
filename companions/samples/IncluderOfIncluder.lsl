IncluderOfIncluder: trait
  includes Includer
