# defined on no line
add $v0, $a0, $a1, $a2, L, 0
