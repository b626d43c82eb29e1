# questions 6 and 7 of one line
L:
L: add $v0, $a0, $a1, $a2, M, 2
