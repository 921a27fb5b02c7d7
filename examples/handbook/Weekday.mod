model
sort Day 7
op 1 2
op 2 3
op 3 4
op 4 5
op 5 6
op 6 1
op 7 0
op 8 0 0 3 4 5 6 1
op 9 2 0 3 4 5 6 1
op 10 1 6 0 2 3 4 5
op 11 1 1 0 0 0 0 0
