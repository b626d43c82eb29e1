# addresses run to 4095
.word 0b1000000000000 1
