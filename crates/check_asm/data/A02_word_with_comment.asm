# or stand
.word 1 2 # two
