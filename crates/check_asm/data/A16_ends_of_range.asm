# the smallest and the largest immediate
add $v0, $a0, $a1, $a2, -2048, 0xFFF
