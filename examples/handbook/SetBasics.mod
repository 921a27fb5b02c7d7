model
sort S 2
sort E 1
op 1 0
op 2 1 1
op 3 0 1
op 4 1
op 5 0 0
