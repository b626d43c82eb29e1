# but one letter or digit
add $, $a0, $a1, $a2, 1, 2
