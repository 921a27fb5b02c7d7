model
sort S 1
op 1 0
