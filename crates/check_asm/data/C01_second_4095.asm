# the same of the second immediate
add $v0, $a0, $a1, $a2, 1, 4095
