model
sort M 2
sort A 1
op 1 0
op 2 1
op 3 0 1
op 4 0 0
op 5 0 1 1 1
op 6 0 0
op 7 0
op 8 0
op 9 0 0
op 10 0 0
op 11 0
