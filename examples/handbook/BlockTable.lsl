% A symbol table as a stack of maps, one for each block; what was stated of tables is shown of stacks.
% Source: Guttag (1977): the correctness of this representation is that paper's example.
% Surprising: that a block is left at the bottom needs no care, since nothing was stated of it.
BlockTable (Id, Attr): trait
  includes FiniteMap (Id, Attr, Map), Stack (Map, Table)
  introduces
    init: -> Table
    enter, leave: Table -> Table
    add: Table, Id, Attr -> Table
    isHere, isThere: Table, Id -> Bool
    retrieve: Table, Id -> Attr
  asserts
    \forall t: Table, m: Map, i: Id, a: Attr
      init == push({}, empty);
      enter(t) == push({}, t);
      leave(t) == pop(t);
      add(push(m, t), i, a) == push(put(m, i, a), t);
      isHere(push(m, t), i) == defined(m, i);
      ~isThere(empty, i);
      isThere(push(m, t), i) == defined(m, i) \/ isThere(t, i);
      retrieve(push(m, t), i) == if defined(m, i) then m[i] else retrieve(t, i)
  implies
    \forall t: Table, m: Map, i, j: Id, a: Attr
      leave(enter(t)) == t;
      leave(add(push(m, t), i, a)) == leave(push(m, t));
      ~isHere(init, i);
      ~isHere(enter(t), i);
      isHere(add(push(m, t), j, a), i) == i = j \/ isHere(push(m, t), i);
      ~isThere(init, i);
      isThere(enter(t), i) == isThere(t, i);
      isThere(add(push(m, t), j, a), i) == i = j \/ isThere(push(m, t), i);
      retrieve(enter(t), i) == retrieve(t, i);
      retrieve(add(push(m, t), j, a), i) == if i = j then a else retrieve(push(m, t), i)
  converts init, enter, leave
  converts add, isHere, isThere, retrieve
    exempting \forall i: Id, a: Attr add(empty, i, a), isHere(empty, i), retrieve(empty, i)
