# the second immediate
L: add $v0, $a0, $a1, $a2, L, M
