# addresses and data are no immediates
.word 4095 3000
.word 2048 4095
