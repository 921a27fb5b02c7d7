duty imply.1
