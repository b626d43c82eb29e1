# data below -2^31
.word 0 -2147483649
