# binom: the binomial coefficient by recursion.
#
#   n stands at 0x100, k at 0x101; the result goes to 0x102.
#
#   int binom(n, k)
#   {
#       if (k == 0 || n == k)
#           return 1;
#       return binom(n-1, k-1) + binom(n-1, k);
#   }
#
# Calling convention: arguments in $a0 and $a1, result in $v0, return address in $ra. A function
# that calls again keeps on the stack what it still needs. The stack grows down from the end of the
# data memory; $sp points to the word pushed last.

        sll  $sp, $imm1, $imm2, $zero, 1, 12       # $sp = 1 << 12 = 4096; an immediate ends at 2047
        lw   $a0, $zero, $imm1, $zero, 0x100, 0    # $a0 = n
        lw   $a1, $zero, $imm1, $zero, 0x101, 0    # $a1 = k
        jal  $ra, $zero, $zero, $imm1, binom, 0    # $v0 = binom(n, k)
        sw   $v0, $zero, $imm1, $zero, 0x102, 0    # the result
        halt $zero, $zero, $zero, $zero, 0, 0      # the end

binom:  beq  $zero, $a1, $zero, $imm1, one, 0      # if k == 0 goto one
        beq  $zero, $a0, $a1, $imm1, one, 0        # if n == k goto one

        sub  $sp, $sp, $imm1, $zero, 4, 0          # room for four words
        sw   $ra, $sp, $imm1, $zero, 3, 0          # keep the return address
        sw   $s0, $sp, $imm1, $zero, 2, 0          # keep the caller's $s0
        sw   $a1, $sp, $imm1, $zero, 1, 0          # keep k
        sw   $a0, $sp, $zero, $zero, 0, 0          # keep n

        sub  $a0, $a0, $imm1, $zero, 1, 0          # n - 1
        sub  $a1, $a1, $imm1, $zero, 1, 0          # k - 1
        jal  $ra, $zero, $zero, $imm1, binom, 0    # $v0 = binom(n-1, k-1)
        add  $s0, $v0, $zero, $zero, 0, 0          # $s0 = the first result: the next call takes $v0

        lw   $a0, $sp, $zero, $imm1, -1, 0         # $a0 = n - 1: lw adds R[rm] to the word
        lw   $a1, $sp, $imm1, $zero, 1, 0          # $a1 = k
        jal  $ra, $zero, $zero, $imm1, binom, 0    # $v0 = binom(n-1, k)
        add  $v0, $v0, $s0, $zero, 0, 0            # $v0 = binom(n-1, k) + binom(n-1, k-1)

        lw   $s0, $sp, $imm1, $zero, 2, 0          # the caller's $s0 again
        lw   $ra, $sp, $imm1, $zero, 3, 0          # the return address again
        add  $sp, $sp, $imm1, $zero, 4, 0          # the four words are free again
        beq  $zero, $zero, $zero, $ra, 0, 0        # return

one:    add  $v0, $zero, $imm1, $zero, 1, 0        # the result is 1
        beq  $zero, $zero, $zero, $ra, 0, 0        # return

        .word 0x100 8                              # n
        .word 0x101 3                              # k
