FormalsWithSorts (E: Sort, P: Sort): trait
  introduces
    first: P -> E
