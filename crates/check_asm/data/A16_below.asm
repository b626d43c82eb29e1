# below -2048
add $v0, $a0, $a1, $a2, -2049, 2
