# no sign, before zero either
add $v0, $a0, $a1, $a2, -0b0, 2
