# 4 is asked of the whole line before 5
foo $v0, $a0, $a1, $a2, 4096, 0
