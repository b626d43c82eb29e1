# timer: an interrupt every 50 cycles that switches all leds on and off.
#
#   timermax is 49, so the timer counts 0 to 49 and asks for interrupt 0 once in 50 cycles. The
#   handler switches the leds and halts the machine when it has done so ten times.
#
# The main loop counts in $t0. The handler uses $t1 and $s0 only: an interrupt may come between
# any two instructions, and a register that the handler changed would be wrong afterwards.

        out  $zero, $zero, $imm1, $imm2, 6, tick   # irqhandler = address of tick
        out  $zero, $zero, $imm1, $imm2, 13, 49    # timermax = 49
        out  $zero, $zero, $imm1, $imm2, 0, 1      # irq0enable = 1
        out  $zero, $zero, $imm1, $imm2, 11, 1     # timerenable = 1: the timer starts

loop:   add  $t0, $t0, $imm1, $zero, 1, 0          # the main program's work
        beq  $zero, $zero, $zero, $imm1, loop, 0

tick:   in   $t1, $zero, $imm1, $zero, 9, 0        # $t1 = leds
        xor  $t1, $t1, $imm1, $zero, -1, 0         # switch all 32 bits
        out  $zero, $zero, $imm1, $t1, 9, 0        # leds = $t1
        out  $zero, $zero, $imm1, $zero, 3, 0      # irq0status = 0: this one is served
        add  $s0, $s0, $imm1, $zero, 1, 0          # one more
        bge  $zero, $s0, $imm1, $imm2, 10, done    # ten times are enough
        reti $zero, $zero, $zero, $zero, 0, 0      # back to where the main loop was
done:   halt $zero, $zero, $zero, $zero, 0, 0
