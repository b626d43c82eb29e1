# the target of a jump too
beq $zero, $zero, $zero, $imm1, 3000, 0
