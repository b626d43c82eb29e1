# one instruction, one data word: the rest is zero
add $v0, $a0, $a1, $a2, 1, 2
.word 3 5
