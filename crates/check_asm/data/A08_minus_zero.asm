# -0 is 0, as an address too
.word -0 5
.word 1 -0
add $v0, $a0, $a1, $a2, -0, -0
