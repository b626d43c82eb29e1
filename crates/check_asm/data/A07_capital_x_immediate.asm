# x is no digit: it is small
add $v0, $a0, $a1, $a2, 0X1, 2
