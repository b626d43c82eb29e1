# CR in the middle of a line
add $v0,$a0, $a1, $a2,1, 2
