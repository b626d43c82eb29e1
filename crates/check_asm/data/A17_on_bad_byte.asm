# a line with a bad byte, even in its comment, defines none
add $v0, $a0, $a1, $a2, L, 0
L: # 
