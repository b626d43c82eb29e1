# 32 digits at most, whatever the value is
add $v0, $a0, $a1, $a2, 0b000000000000000000000000000000001, 2
