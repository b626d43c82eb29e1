# eight digits at most
.word 1 0x000000001
