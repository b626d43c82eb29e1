# a label that is defined twice comes after
L:
L: add $v0, $a0, $a1, $a2, 4095, 2
