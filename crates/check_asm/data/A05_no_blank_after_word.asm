# a blank must stand after .word
.word1 2
