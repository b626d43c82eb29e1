# one digit at least
add $v0, $a0, $a1, $a2, 0b, 2
