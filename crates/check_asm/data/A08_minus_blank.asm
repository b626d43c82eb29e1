# no blank after the minus
.word 1 - 1
