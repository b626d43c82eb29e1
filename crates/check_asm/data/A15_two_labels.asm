# L and l are two labels
L: add $v0, $a0, $a1, $a2, L, l
l: halt $zero, $zero, $zero, $zero, 0, 0
