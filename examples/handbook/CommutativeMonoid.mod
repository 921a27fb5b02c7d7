model
sort S 1
op 1 0
op 2 0
