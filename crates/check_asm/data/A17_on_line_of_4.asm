# defined on a line that gets a 4: that line is the first bad one
add $v0, $a0, $a1, $a2, L, 0
L: foo $v0, $a0, $a1, $a2, 1, 2
