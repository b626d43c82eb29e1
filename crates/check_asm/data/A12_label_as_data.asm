# no label in a .word
L:
.word 1 L
