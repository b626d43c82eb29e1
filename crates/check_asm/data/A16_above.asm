# above 4095
add $v0, $a0, $a1, $a2, 0x1000, 2
