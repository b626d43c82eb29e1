# eight digits at most
.word 1 0x123456789
