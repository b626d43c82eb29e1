# the smallest big decimal
add $v0, $a0, $a1, $a2, 2048, 2
