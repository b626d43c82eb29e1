# one minus
.word 1 --1
