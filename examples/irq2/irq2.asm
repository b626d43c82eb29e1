# irq2: counts the requests of the outer line irq2 and shows the count on display7seg.
#
#   The file irq2in.txt says in which cycles the line rises. The main program waits until clks has
#   reached 400 and halts.
#
# What to see in the log:
#   - 50 and 120 each lead to the handler at once.
#   - 200 leads to the handler; 201 comes before the handler has cleared irq2status, which is 1
#     already. The two requests are served as one: the second is lost.
#   - 280 leads to the handler; 283 comes after irq2status was cleared, but still inside the
#     handler. It isn't entered a second time; right after reti it is.
#   - 350 is counted as usual. So seven requests give a count of six.

        out  $zero, $zero, $imm1, $imm2, 6, ring   # irqhandler = address of ring
        out  $zero, $zero, $imm1, $imm2, 2, 1      # irq2enable = 1

wait:   in   $t0, $zero, $imm1, $zero, 8, 0        # $t0 = clks
        blt  $zero, $t0, $imm1, $imm2, 400, wait   # if clks < 400 goto wait
        halt $zero, $zero, $zero, $zero, 0, 0

# The handler: $s0 is the count, no other register changes.
ring:   add  $s0, $s0, $imm1, $zero, 1, 0          # one more
        out  $zero, $zero, $imm1, $zero, 5, 0      # irq2status = 0
        out  $zero, $zero, $imm1, $s0, 10, 0       # display7seg = count
        reti $zero, $zero, $zero, $zero, 0, 0
