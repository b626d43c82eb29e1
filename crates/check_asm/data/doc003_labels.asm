# document 003's example of labels
bne $zero, $t0, $t1, $imm1, L1, 0      # if ($t0 != $t1) goto L1
                                         # (reg1 = address of L1)
add $t2, $t2, $imm1, $zero, 1, 0       # $t2 = $t2 + 1 (reg1 = 1)
beq $zero, $zero, $zero, $imm1, L2, 0   # jump to L2 (reg1 = address L2)
L1:
sub $t2, $t2, $imm1, $zero, 1, 0       # $t2 = $t2 - 1 (reg1 = 1)
L2:
add $t1, $zero, $imm1, $zero, L3, 0     # $t1 = address of L3
beq $zero, $zero, $zero, $t1, 0, 0      # jump to the address specified in t1
L3:
jal $ra, $zero, $zero, $imm1, L4, 0     # function call L4, save return addr in $ra
halt $zero, $zero, $zero, $zero, 0, 0   # halt execution
L4:
beq $zero, $zero, $zero, $ra, 0, 0      # return from function in address in $ra
