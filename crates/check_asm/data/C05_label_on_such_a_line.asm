# the label counts as defined, so line 2 is good
add $v0, $a0, $a1, $a2, L, 2
L: add $v0, $a0, $a1, $a2, 2048, 2
