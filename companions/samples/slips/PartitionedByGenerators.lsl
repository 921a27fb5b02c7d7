PartitionedByGenerators: trait
  introduces
    fresh: -> Account
    pay: Account, Money -> Account
    balance: Account -> Money
    open: Account -> Bool
    nil: -> Money
    __ + __, __ - __: Money, Money -> Money
    __ < __: Money, Money -> Bool
  asserts
    Account partitioned by fresh
    \forall a: Account, m, n: Money
      open(a)
