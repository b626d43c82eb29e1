# 0xFFFFF800 is not -2048
add $v0, $a0, $a1, $a2, 0xFFFFF800, 2
