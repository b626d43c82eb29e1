# twice, the second line gets a 6
add $v0, $a0, $a1, $a2, L, 0
L:
L:
