% What is urgent comes first: a queue of levels.
Agenda: trait
  includes PriorityQueue (Level, Agenda)
  Level enumeration of urgent, usual, idle
  asserts
    % The order that the queue assumes. That it is a total one isn't stated, so it is to be shown.
    \forall x: Level
      urgent <= x;
      x <= idle;
      usual <= usual;
      ~(usual <= urgent);
      ~(idle <= urgent);
      ~(idle <= usual)
  implies
    least(insert(idle, insert(urgent, empty))) == urgent
