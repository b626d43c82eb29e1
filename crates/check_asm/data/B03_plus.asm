# no sign
.word 1 +0b1
