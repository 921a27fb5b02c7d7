model
sort A 1
sort B 1
sort Pair 1
op 1 1
op 2 1
op 3 0
op 4 0
op 5 0
op 6 0
op 7 0
op 8 1
