# a small b only
add $v0, $a0, $a1, $a2, 1, 0B1
