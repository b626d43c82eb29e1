# a comma is no blank
.word 1,2
