# the later .word of one address wins
.word 3 4
.word 0x3 5
.word 2 1
.word 2 0
