# lines that end in CR LF
add $v0, $a0, $a1, $a2, 1, 2

.word 1 2
