# a label used on its own line
L: add $v0, $a0, $a1, $a2, L, 0
