# an address above 4095
.word 4096 0
