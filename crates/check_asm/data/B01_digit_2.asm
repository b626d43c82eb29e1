# 2 is no binary digit
.word 0b2 1
