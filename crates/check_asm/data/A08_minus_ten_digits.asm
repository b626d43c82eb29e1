# the minus is not counted among the ten digits
.word 1 -2147483648
add $v0, $a0, $a1, $a2, -0000000001, 2
