# ten digits at most
.word 1 00000000001
