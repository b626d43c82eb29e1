# allirqs: timer, disk and outer line ask for an interrupt in the same cycle, and again while the
# handler is at work.
#
#   The disk command of cycle 6 ends with cycle 6 + 1024 = 1030. The timer is enabled in cycle 8
#   with timermax 1022, so it asks at the end of cycle 8 + 1022 = 1030. The file irq2in.txt has the
#   line irq2 rise in cycle 1031. So at the beginning of cycle 1031 all three status bits are 1.
#
#   The machine has one handler for all three and does not nest: while the handler flag is up,
#   requests wait as status bits. The handler serves one request, the first of the order timer,
#   disk, line, clears its status bit and returns; the requests that wait lead straight back to it.
#
#   display7seg shows in which order they were served, a digit each: 1 timer, 2 disk, 3 line.
#     1      of the three that wait the timer is first; it also sets timermax to 10, ...
#     12     ... so that the timer asks again while the disk is being served: not nested, but ...
#     121    ... it goes before the line, which has been waiting longer. The timer is now off.
#     1213   the line at last; a second rise in cycle 1068 comes inside this very service, ...
#     12133  ... after the status bit was cleared, and is served right after reti.
#   After five services the main program halts.

        out  $zero, $zero, $imm1, $imm2, 6, serve  # 0: irqhandler = address of serve
        out  $zero, $zero, $imm1, $imm2, 0, 1      # 1: irq0enable = 1
        out  $zero, $zero, $imm1, $imm2, 1, 1      # 2: irq1enable = 1
        out  $zero, $zero, $imm1, $imm2, 2, 1      # 3: irq2enable = 1
        out  $zero, $zero, $imm1, $imm2, 15, 3     # 4: disksector = 3
        out  $zero, $zero, $imm1, $imm2, 16, 0x200 # 5: diskbuffer = 0x200
        out  $zero, $zero, $imm1, $imm2, 14, 1     # 6: diskcmd = 1, read
        out  $zero, $zero, $imm1, $imm2, 13, 1022  # 7: timermax = 1022
        out  $zero, $zero, $imm1, $imm2, 11, 1     # 8: timerenable = 1

wait:   blt  $zero, $s0, $imm1, $imm2, 5, wait     # until five requests were served
        halt $zero, $zero, $zero, $zero, 0, 0

# The handler: $s0 = how many were served, $v0 = the digits, $t0 = a status bit.
serve:  add  $s0, $s0, $imm1, $zero, 1, 0          # one more
        in   $t0, $zero, $imm1, $zero, 3, 0        # $t0 = irq0status
        bne  $zero, $t0, $zero, $imm1, timer, 0
        in   $t0, $zero, $imm1, $zero, 4, 0        # $t0 = irq1status
        bne  $zero, $t0, $zero, $imm1, disk, 0

line:   out  $zero, $zero, $imm1, $zero, 5, 0      # irq2status = 0
        mac  $v0, $v0, $imm1, $imm2, 16, 3         # one more digit, 3
        out  $zero, $zero, $imm1, $v0, 10, 0       # display7seg = digits
        reti $zero, $zero, $zero, $zero, 0, 0

disk:   out  $zero, $zero, $imm1, $zero, 4, 0      # irq1status = 0
        mac  $v0, $v0, $imm1, $imm2, 16, 2         # one more digit, 2
        out  $zero, $zero, $imm1, $v0, 10, 0       # display7seg = digits
        reti $zero, $zero, $zero, $zero, 0, 0

timer:  out  $zero, $zero, $imm1, $zero, 3, 0      # irq0status = 0
        out  $zero, $zero, $imm1, $imm2, 13, 10    # timermax = 10
        bne  $zero, $v0, $zero, $imm1, off, 0      # not the first service: timer off
        out  $zero, $zero, $imm1, $zero, 12, 0     # timercurrent = 0
digit:  mac  $v0, $v0, $imm1, $imm2, 16, 1         # one more digit, 1
        out  $zero, $zero, $imm1, $v0, 10, 0       # display7seg = digits
        reti $zero, $zero, $zero, $zero, 0, 0
off:    out  $zero, $zero, $imm1, $zero, 11, 0     # timerenable = 0
        beq  $zero, $zero, $zero, $imm1, digit, 0
