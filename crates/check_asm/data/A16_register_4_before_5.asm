# 4 is asked of the whole line before 5
add $v0, $a0, $a1, $t3, 4096, 0
