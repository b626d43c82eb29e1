# the comment of a .word may be missing
.word 1 2
