# a line of wrong form defines none
add $v0, $a0, $a1, $a2, L, 0
L: foo
