% every command
set box-checking on
set rewriting-limit 100
declare variables x, y: Bool
register height \in > =
register status left-to-right +
duty imply.1
  resume by induction on x
    <> basis % set
    [] basis
  prove if x then true else y == ~x /\ y
  resume by cases x => y
  instantiate x by __.first in D1.2
  critical-pairs A4 with H1
  normalize L2
  [] conjecture
qed
