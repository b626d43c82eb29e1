add $t0, $t0, $imm1, $zero, 4095, 0
