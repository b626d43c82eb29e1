# on a line that gets a 5
add $v0, $a0, $a1, $a2, L, 0
L: add $v0, $a0, $a1, $a2, 4096, 2
