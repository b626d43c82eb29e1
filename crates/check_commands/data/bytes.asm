halt $zero, $zero, $zero, $zero, 0, 0 # café
