# document 01's encoded example: 018122002003
sub $t1, $imm1, $imm2, $imm2, 2, 3  # R8, R1, R2, R2
