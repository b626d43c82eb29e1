# a word of zeros between
add $zero, $zero, $zero, $zero, 0, 0
halt $zero, $zero, $zero, $zero, 0, 0
