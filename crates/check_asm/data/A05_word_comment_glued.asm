# a comment right after the data
.word 1 2#c
