% A map under names of its own: a sort, a sort and an operator are renamed at once.
PhoneBook: trait
  includes FiniteMap (Person for K, Number for V, Book for M, enter for put)
  introduces
    isListed: Person, Book -> Bool
  asserts
    \forall p: Person, b: Book
      isListed(p, b) == defined(b, p)
