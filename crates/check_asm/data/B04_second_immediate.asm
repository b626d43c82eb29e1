# binary immediates run to 4095
add $v0, $a0, $a1, $a2, 1, 0b1000000000000
