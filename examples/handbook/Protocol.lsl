% Sending over a line that may lose what is sent: each message carries a bit, and is sent until that bit comes back.
% Source: K. Bartlett, R. Scantlebury, P. Wilkinson, A note on reliable full-duplex transmission (1969).
% Surprising: one bit is enough; the invariant that shows it is a statement on the two bits and what was received.
Protocol (M, L): trait
  includes ListAppend (M, L)
  Ends tuple of toSend: L, bit: Bool, received: L, expected: Bool
  introduces
    begin: L -> Ends
    deliver, acknowledge: Ends -> Ends
    isRight: Ends, L -> Bool
  asserts
    \forall c: Ends, l: L
      begin(l) == [l, true, nil, true];
      % A message comes through: it is kept if its bit is the one that is expected.
      deliver(c) ==
        if isEmpty(c.toSend) \/ ~(c.bit <=> c.expected) then c
        else [c.toSend, c.bit, c.received ++ single(head(c.toSend)), ~(c.expected)];
      % An acknowledgement comes through: the sender goes on if its bit was accepted.
      acknowledge(c) ==
        if isEmpty(c.toSend) \/ (c.bit <=> c.expected) then c
        else [tail(c.toSend), ~(c.bit), c.received, c.expected];
      isRight(c, l) ==
        if isEmpty(c.toSend) then c.received = l
        else if c.bit <=> c.expected then (c.received ++ c.toSend) = l else (c.received ++ tail(c.toSend)) = l
  implies Monoid (L, __ ++ __ for __ * __, nil for unit)
    \forall c: Ends, k, l: L
      isEmpty(l) => l = nil;
      ~isEmpty(l) => cons(head(l), tail(l)) = l;
      isRight(begin(l), l);
      (k ++ single(head(l))) ++ tail(l) == k ++ cons(head(l), tail(l));
      isRight(c, l) => isRight(deliver(c), l);
      isRight(c, l) => isRight(acknowledge(c), l);
      (isRight(c, l) /\ isEmpty(c.toSend)) => c.received = l;
      deliver(deliver(c)) == deliver(c);
      acknowledge(acknowledge(c)) == acknowledge(c);
      deliver(c).toSend == c.toSend;
      acknowledge(c).received == c.received
  converts begin, deliver, acknowledge, isRight
