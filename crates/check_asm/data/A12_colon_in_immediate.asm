# a label is used without its colon
L: add $v0, $a0, $a1, $a2, L:, 2
