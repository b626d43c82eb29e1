# x is no digit: it is small
.word 1 0X1
