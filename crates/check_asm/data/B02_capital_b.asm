# a small b only
.word 1 0B1
