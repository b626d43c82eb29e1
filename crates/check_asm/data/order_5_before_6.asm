# questions 5 and 6 of one line
L:
L: add $v0, $a0, $a1, $a2, 4096, 2
