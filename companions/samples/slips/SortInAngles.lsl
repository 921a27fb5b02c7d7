SortInAngles: trait
  introduces
    nil: -> List<Item>
    cons: Item, List<Item> -> List<Item>
