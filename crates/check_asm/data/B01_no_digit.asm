# one digit at least
.word 1 0b
