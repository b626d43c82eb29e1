# 32 digits at most: wrong form and not out of range
.word 1 0b111111111111111111111111111111111
