% A crossing: a light for each road, and no two roads that may go at once.
Crossing (Road, Crossing): trait
  includes Light, FiniteMap (Road, Colour, Crossing, turn for put)
  introduces
    isSafe: Crossing -> Bool
    mayMeet: Crossing, Road, Road -> Bool
  asserts
    \forall c: Crossing, p, q: Road
      isSafe({});
      mayMeet(c, p, q) == p ~= q /\ mayGo(c[p]) /\ mayGo(c[q]);
      (isSafe(c) /\ mayMeet(c, p, q)) => false
