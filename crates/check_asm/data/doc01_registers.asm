# the registers in their order, R0 to R15, and back
or $zero, $imm1, $imm2, $v0, 0, 0
or $a0, $a1, $a2, $t0, 0, 0
or $t1, $t2, $s0, $s1, 0, 0
or $s2, $gp, $sp, $ra, 0, 0
or $ra, $sp, $gp, $s2, 0, 0
or $s1, $s0, $t2, $t1, 0, 0
or $t0, $a2, $a1, $a0, 0, 0
or $v0, $imm2, $imm1, $zero, 0, 0
