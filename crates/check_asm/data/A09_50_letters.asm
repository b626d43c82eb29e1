# a label of 50 letters
halt $zero, $zero, $zero, $zero, 0, 0
aaaaaaaaaaaaaaaaaaaaaaaaaaaaaaaaaaaaaaaaaaaaaaaaaa: add $v0, $a0, $a1, $a2, aaaaaaaaaaaaaaaaaaaaaaaaaaaaaaaaaaaaaaaaaaaaaaaaaa, 2
