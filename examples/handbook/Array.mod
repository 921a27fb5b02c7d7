model
sort V 1
sort A 1
sort I 1
op 1 0
op 2 0
op 3 0
op 4 0
