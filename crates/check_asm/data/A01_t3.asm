# opcode, rd, rs, rt, rm, imm1, imm2
add $t3, $t2, $t1, $t0, 0, 0      # $t3 = $t2 + $t1 + $t0
