# eight digits at most
add $v0, $a0, $a1, $a2, 0x123456789, 2
