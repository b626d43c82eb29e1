# document 003's lines but the first, which is A1
# opcode, rd, rs, rt, rm, imm1, imm2
add $t1, $t1, $imm1, $zero, 2, 0  # $t1 = $t1 + 2
add $t1, $imm1, $imm1, $imm1, 2, 0 # $t1 = 2 + 2 + 2 = 6
sub $t1, $imm1, $imm2, $imm2, 2, 3 # $t1 = 2 - 3 - 3 = -4
