set box-checking on

% next(next(next(next(next(next(next(d))))))) == d
duty imply.1
  resume by induction on d
  <> basis monday
  [] basis monday
  <> basis tuesday
  [] basis tuesday
  <> basis wednesday
  [] basis wednesday
  <> basis thursday
  [] basis thursday
  <> basis friday
  [] basis friday
  <> basis saturday
  [] basis saturday
  <> basis sunday
  [] basis sunday
  [] conjecture
  qed

% next(previous(d)) == d
duty imply.2
  [] conjecture
  qed

% previous(next(d)) == d
duty imply.3
  [] conjecture
  qed

% next(d) = next(e) == d = e
duty imply.4
  resume by induction on d
  <> basis monday
    resume by induction on e
    <> basis monday
    [] basis monday
    <> basis tuesday
    [] basis tuesday
    <> basis wednesday
    [] basis wednesday
    <> basis thursday
    [] basis thursday
    <> basis friday
    [] basis friday
    <> basis saturday
    [] basis saturday
    <> basis sunday
    [] basis sunday
  [] basis monday
  <> basis tuesday
    resume by induction on e
    <> basis monday
    [] basis monday
    <> basis tuesday
    [] basis tuesday
    <> basis wednesday
    [] basis wednesday
    <> basis thursday
    [] basis thursday
    <> basis friday
    [] basis friday
    <> basis saturday
    [] basis saturday
    <> basis sunday
    [] basis sunday
  [] basis tuesday
  <> basis wednesday
    resume by induction on e
    <> basis monday
    [] basis monday
    <> basis tuesday
    [] basis tuesday
    <> basis wednesday
    [] basis wednesday
    <> basis thursday
    [] basis thursday
    <> basis friday
    [] basis friday
    <> basis saturday
    [] basis saturday
    <> basis sunday
    [] basis sunday
  [] basis wednesday
  <> basis thursday
    resume by induction on e
    <> basis monday
    [] basis monday
    <> basis tuesday
    [] basis tuesday
    <> basis wednesday
    [] basis wednesday
    <> basis thursday
    [] basis thursday
    <> basis friday
    [] basis friday
    <> basis saturday
    [] basis saturday
    <> basis sunday
    [] basis sunday
  [] basis thursday
  <> basis friday
    resume by induction on e
    <> basis monday
    [] basis monday
    <> basis tuesday
    [] basis tuesday
    <> basis wednesday
    [] basis wednesday
    <> basis thursday
    [] basis thursday
    <> basis friday
    [] basis friday
    <> basis saturday
    [] basis saturday
    <> basis sunday
    [] basis sunday
  [] basis friday
  <> basis saturday
    resume by induction on e
    <> basis monday
    [] basis monday
    <> basis tuesday
    [] basis tuesday
    <> basis wednesday
    [] basis wednesday
    <> basis thursday
    [] basis thursday
    <> basis friday
    [] basis friday
    <> basis saturday
    [] basis saturday
    <> basis sunday
    [] basis sunday
  [] basis saturday
  <> basis sunday
    resume by induction on e
    <> basis monday
    [] basis monday
    <> basis tuesday
    [] basis tuesday
    <> basis wednesday
    [] basis wednesday
    <> basis thursday
    [] basis thursday
    <> basis friday
    [] basis friday
    <> basis saturday
    [] basis saturday
    <> basis sunday
    [] basis sunday
  [] basis sunday
  [] conjecture
  qed

% next(d) ~= d
duty imply.5
  resume by induction on d
  <> basis monday
  [] basis monday
  <> basis tuesday
  [] basis tuesday
  <> basis wednesday
  [] basis wednesday
  <> basis thursday
  [] basis thursday
  <> basis friday
  [] basis friday
  <> basis saturday
  [] basis saturday
  <> basis sunday
  [] basis sunday
  [] conjecture
  qed

% isWeekend(d) => (~ isWeekend(next(next(d))))
duty imply.6
  resume by induction on d
  <> basis monday
  [] basis monday
  <> basis tuesday
  [] basis tuesday
  <> basis wednesday
  [] basis wednesday
  <> basis thursday
  [] basis thursday
  <> basis friday
  [] basis friday
  <> basis saturday
  [] basis saturday
  <> basis sunday
  [] basis sunday
  [] conjecture
  qed

% isWeekend(d) /\ isWeekend(next(d)) == d = saturday
duty imply.7
  resume by induction on d
  <> basis monday
  [] basis monday
  <> basis tuesday
  [] basis tuesday
  <> basis wednesday
  [] basis wednesday
  <> basis thursday
  [] basis thursday
  <> basis friday
  [] basis friday
  <> basis saturday
  [] basis saturday
  <> basis sunday
  [] basis sunday
  [] conjecture
  qed

% previous(monday) == sunday
duty imply.8
  [] conjecture
  qed

% next(x1) == next'(x1)
duty convert.1
  [] conjecture
  qed

% isWeekend(x1) == isWeekend'(x1)
duty convert.2
  [] conjecture
  qed

% previous(x1) == previous'(x1)
duty convert.3
  [] conjecture
  qed
