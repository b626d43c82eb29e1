# the second immediate
add $v0, $a0, $a1, $a2, 1, 0x1000
