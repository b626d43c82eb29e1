# an address below 0
.word -1 0
