# mulmat: multiplies two matrices of 4 by 4 words.
#
#   A stands at 0x100 to 0x10F, B at 0x110 to 0x11F, the result C goes to 0x120 to 0x12F.
#   Each matrix is stored row after row, so that X[i][j] stands at X + 4*i + j.
#
# Registers: $s0 = i (row of C), $s1 = j (column of C), $s2 = k (place in the sum),
#            $v0 = the sum, $t0 and $t1 = addresses and then the two factors.
#
# $imm1 and $imm2 are the two numbers at the end of the line. mac multiplies and adds, which is
# just what an address 4*i + k and a sum of products need.

        add  $s0, $zero, $zero, $zero, 0, 0        # i = 0
row:    add  $s1, $zero, $zero, $zero, 0, 0        # j = 0
column: add  $v0, $zero, $zero, $zero, 0, 0        # sum = 0
        add  $s2, $zero, $zero, $zero, 0, 0        # k = 0

term:   mac  $t0, $s0, $imm1, $s2, 4, 0            # $t0 = 4*i + k
        lw   $t0, $t0, $imm1, $zero, 0x100, 0      # $t0 = A[i][k]
        mac  $t1, $s2, $imm1, $s1, 4, 0            # $t1 = 4*k + j
        lw   $t1, $t1, $imm1, $zero, 0x110, 0      # $t1 = B[k][j]
        mac  $v0, $t0, $t1, $v0, 0, 0              # sum = A[i][k]*B[k][j] + sum
        add  $s2, $s2, $imm1, $zero, 1, 0          # k = k + 1
        blt  $zero, $s2, $imm1, $imm2, 4, term     # if k < 4 goto term

        mac  $t0, $s0, $imm1, $s1, 4, 0            # $t0 = 4*i + j
        sw   $v0, $t0, $imm1, $zero, 0x120, 0      # C[i][j] = sum
        add  $s1, $s1, $imm1, $zero, 1, 0          # j = j + 1
        blt  $zero, $s1, $imm1, $imm2, 4, column   # if j < 4 goto column
        add  $s0, $s0, $imm1, $zero, 1, 0          # i = i + 1
        blt  $zero, $s0, $imm1, $imm2, 4, row      # if i < 4 goto row
        halt $zero, $zero, $zero, $zero, 0, 0      # the end

# A: the numbers 1 to 16
        .word 0x100 1                              # row 0
        .word 0x101 2
        .word 0x102 3
        .word 0x103 4
        .word 0x104 5                              # row 1
        .word 0x105 6
        .word 0x106 7
        .word 0x107 8
        .word 0x108 9                              # row 2
        .word 0x109 10
        .word 0x10A 11
        .word 0x10B 12
        .word 0x10C 13                             # row 3
        .word 0x10D 14
        .word 0x10E 15
        .word 0x10F 16

# B: some numbers below zero too; data may be decimal, negative, hexadecimal or binary
        .word 0x110 2                              # row 0
        .word 0x111 -1
        .word 0x112 0
        .word 0x113 7
        .word 0x114 -3                             # row 1
        .word 0x115 4
        .word 0x116 1
        .word 0x117 0
        .word 0x118 0x64                           # row 2
        .word 0x119 -100
        .word 0x11A 5
        .word 0x11B 0xFFFFFFFF                     # the same word as -1
        .word 0x11C 0                              # row 3
        .word 0x11D 6
        .word 0x11E -2
        .word 0x11F 1000
