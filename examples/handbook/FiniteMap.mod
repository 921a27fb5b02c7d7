model
sort M 2
sort K 1
sort V 1
op 1 0
op 2 1 1
op 3 0 1
op 4 0 0
op 5 0 0
op 6 0 1 1 1
