PartitionBy: trait
  introduces
    name: Person -> Text
    age: Person -> Count
  asserts
    Person partition by name, age
