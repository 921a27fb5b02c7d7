model
sort A 1
sort B 1
sort C 1
op 1 0
op 2 0
op 3 0
op 4 0
op 5 0
op 6 0
op 7 0
op 8 0
op 9 0
