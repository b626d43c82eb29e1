# unsigned: 32 ones are out of range and not -1
add $v0, $a0, $a1, $a2, 1, 0b11111111111111111111111111111111
