# no plus
.word 1 +1
