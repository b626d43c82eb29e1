# a blank must stand after the address
.word 12
