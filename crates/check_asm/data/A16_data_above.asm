# data above 2^32-1
.word 0 4294967296
