# any blank will do
.word	12
