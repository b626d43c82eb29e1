# a zero in front makes no octal number
.word 010 017
add $v0, $a0, $a1, $a2, 010, 0017
