# no sign before 0x
add $v0, $a0, $a1, $a2, -0x1, 2
