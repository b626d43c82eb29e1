# a blank must stand after the op
add$t0, $a0, $a1, $a2, 1, 2
