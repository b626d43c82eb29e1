# ten digits at most
add $v0, $a0, $a1, $a2, 00000000001, 2
