# digits alone
.word 1 0b1_0
