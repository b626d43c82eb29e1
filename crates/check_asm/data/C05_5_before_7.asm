# and so does an undefined one
add $v0, $a0, $a1, $a2, 4095, M
