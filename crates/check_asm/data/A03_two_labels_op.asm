# no two labels before an instruction
L: M: add $v0, $a0, $a1, $a2, 1, 2
