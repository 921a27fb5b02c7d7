IntroducesForgotten: trait
  none: -> Bag
  many: Bag -> Num
