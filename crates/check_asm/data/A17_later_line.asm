# defined on a later line
add $v0, $a0, $a1, $a2, L, 0
L: halt $zero, $zero, $zero, $zero, 0, 0
