# so it is written in hexadecimal
beq $zero, $zero, $zero, $imm1, 0xBB8, 0
