# no label in a .word
L:
.word L 1
