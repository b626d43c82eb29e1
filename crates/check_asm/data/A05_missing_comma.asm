# a blank is no comma
add $v0 $a0, $a1, $a2, 1, 2
