LetterOutside: trait
  introduces
    größe: Bag -> Num
