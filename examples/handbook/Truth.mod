model
op 1 0 1 1 0
op 2 0 0 0 1 0 1 1 1
op 3 1 1 1 0
