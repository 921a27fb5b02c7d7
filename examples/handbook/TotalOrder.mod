model
sort E 1
op 1 1
