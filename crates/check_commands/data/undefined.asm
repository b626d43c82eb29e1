jal $ra, $zero, $zero, $imm1, There, 0
