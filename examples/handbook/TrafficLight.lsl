% Two lights at a crossing, of which never both let go.
% Source: E. Dijkstra, Cooperating sequential processes (1965), of exclusion; the example is everybody's.
% Surprising: the invariant that one wants is kept by itself; most often one has to claim more for that.
TrafficLight: trait
  Colour enumeration of red, green, amber
  Crossing tuple of north: Colour, east: Colour
  introduces
    start: -> Crossing
    stepNorth, stepEast: Crossing -> Crossing
    lets: Colour -> Bool
    isSafe: Crossing -> Bool
  asserts
    \forall c: Crossing, k: Colour
      start == [red, red];
      stepNorth(c) ==
        if c.north = green then set_north(c, amber)
        else if c.north = amber then set_north(c, red)
        else if c.east = red then set_north(c, green) else c;
      stepEast(c) ==
        if c.east = green then set_east(c, amber)
        else if c.east = amber then set_east(c, red)
        else if c.north = red then set_east(c, green) else c;
      lets(k) == k ~= red;
      isSafe(c) == ~(lets(c.north) /\ lets(c.east))
  implies
    \forall c: Crossing
      isSafe(start);
      isSafe(c) => isSafe(stepNorth(c));
      isSafe(c) => isSafe(stepEast(c));
      isSafe(c) == c.north = red \/ c.east = red;
      stepNorth(stepNorth(stepNorth(start))) == start;
      stepEast(stepNorth(start)) == stepNorth(start);
      (lets(stepNorth(c).north) /\ ~lets(c.north)) => c.east = red
  converts start, stepNorth, stepEast, lets, isSafe
