# on a line that gets a 7
add $v0, $a0, $a1, $a2, L, 0
L: add $v0, $a0, $a1, $a2, M, 2
