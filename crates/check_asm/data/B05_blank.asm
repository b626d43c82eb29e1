# one token
add $v0, $a0, $a1, $a2, 0b 1, 2
