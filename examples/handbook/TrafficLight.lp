set box-checking on

% isSafe(start)
duty imply.1
  [] conjecture
  qed

% isSafe(c) => isSafe(stepNorth(c))
duty imply.2
  resume by induction on c
  <> basis [ac, ac1]
    register height ac > amber
    register height ac1 > amber
    resume by cases ac = green
    <> case ac = green
    [] case ac = green
    <> case ~(ac = green)
      resume by cases ac = amber
      <> case ac = amber
      [] case ac = amber
      <> case ~(ac = amber)
        resume by cases ac1 = red
        <> case ac1 = red
        [] case ac1 = red
        <> case ~(ac1 = red)
        [] case ~(ac1 = red)
      [] case ~(ac = amber)
    [] case ~(ac = green)
  [] basis [ac, ac1]
  [] conjecture
  qed

% isSafe(c) => isSafe(stepEast(c))
duty imply.3
  resume by induction on c
  <> basis [ac, ac1]
    register height ac > amber
    register height ac1 > amber
    resume by cases ac1 = green
    <> case ac1 = green
    [] case ac1 = green
    <> case ~(ac1 = green)
      resume by cases ac1 = amber
      <> case ac1 = amber
      [] case ac1 = amber
      <> case ~(ac1 = amber)
        resume by cases ac = red
        <> case ac = red
        [] case ac = red
        <> case ~(ac = red)
        [] case ~(ac = red)
      [] case ~(ac1 = amber)
    [] case ~(ac1 = green)
  [] basis [ac, ac1]
  [] conjecture
  qed

% isSafe(c) == ((c.north) = red) \/ ((c.east) = red)
duty imply.4
  resume by cases (c.north) = red
  <> case (cc.north) = red
  [] case (cc.north) = red
  <> case ~((cc.north) = red)
  [] case ~((cc.north) = red)
  [] conjecture
  qed

% stepNorth(stepNorth(stepNorth(start))) == start
duty imply.5
  [] conjecture
  qed

% stepEast(stepNorth(start)) == stepNorth(start)
duty imply.6
  [] conjecture
  qed

% (lets(stepNorth(c).north) /\ (~ lets(c.north))) => ((c.east) = red)
duty imply.7
  resume by cases c.north = green
  <> case (cc.north) = green
  [] case (cc.north) = green
  <> case ~((cc.north) = green)
    resume by cases cc.north = amber
    <> case (cc.north) = amber
    [] case (cc.north) = amber
    <> case ~((cc.north) = amber)
      resume by cases cc.east = red
      <> case (cc.east) = red
      [] case (cc.east) = red
      <> case ~((cc.east) = red)
      [] case ~((cc.east) = red)
    [] case ~((cc.north) = amber)
  [] case ~((cc.north) = green)
  [] conjecture
  qed

% start == start'
duty convert.1
  [] conjecture
  qed

% stepNorth(x1) == stepNorth'(x1)
duty convert.2
  [] conjecture
  qed

% stepEast(x1) == stepEast'(x1)
duty convert.3
  [] conjecture
  qed

% lets(x1) == lets'(x1)
duty convert.4
  [] conjecture
  qed

% isSafe(x1) == isSafe'(x1)
duty convert.5
  [] conjecture
  qed
