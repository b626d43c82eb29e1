# no label before .word
L: .word 1 2
