# 2 is no binary digit, after others too
add $v0, $a0, $a1, $a2, 1, 0b12
