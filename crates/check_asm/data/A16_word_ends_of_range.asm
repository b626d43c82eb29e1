# the ends of the range of addresses and data
.word 4095 4294967295
.word 0 -2147483648
