model
sort E 1
sort R 2
op 1 0 1
op 2 0
op 3 1
op 4 1
op 5 0 1 1 1
op 6 0 0 0 1
op 7 1 0
op 8 0 1
op 9 1
op 10 1 1
