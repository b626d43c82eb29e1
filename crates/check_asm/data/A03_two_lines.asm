# on lines of their own they may stand
L:
M:
.word 1 2
add $v0, $a0, $a1, $a2, L, M
