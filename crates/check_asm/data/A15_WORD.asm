# .WORD is neither .word nor an op
.WORD 1 2
