# rm is asked too
add $v0, $a0, $a1, $T0, 1, 2
