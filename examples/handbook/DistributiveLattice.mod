model
sort L 1
op 1 0
op 2 0
op 3 1
