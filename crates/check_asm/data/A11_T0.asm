# in small letters
add $T0, $a0, $a1, $a2, 1, 2
