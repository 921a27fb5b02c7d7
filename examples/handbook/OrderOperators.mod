model
sort E 1
op 1 1
op 2 0
op 3 1
op 4 0
