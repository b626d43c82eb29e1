# the value counts, not how many digits it has
add $v0, $a0, $a1, $a2, 0000002048, 2
