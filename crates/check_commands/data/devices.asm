# devices: uses each device, the interrupts of the timer and of irq2, a disk command of each kind, and ends with a fault.

        out $zero, $zero, $imm1, $imm2, 6, handler   # irqhandler
        out $zero, $zero, $imm1, $imm2, 0, 1         # irq0enable
        out $zero, $zero, $imm1, $imm2, 2, 1         # irq2enable
        out $zero, $zero, $imm1, $imm2, 13, 17       # timermax
        out $zero, $zero, $imm1, $imm2, 11, 1        # timerenable
        out $zero, $zero, $imm1, $imm2, 9, 5         # leds
        out $zero, $zero, $imm1, $imm2, 9, 5         # the same leds: no change
        out $zero, $zero, $imm1, $imm2, 10, 0x7AB    # display7seg
        out $zero, $zero, $imm1, $imm2, 15, 3        # disksector
        out $zero, $zero, $imm1, $imm2, 16, 0x200    # diskbuffer
        out $zero, $zero, $imm1, $imm2, 14, 1        # diskcmd: read
        out $zero, $zero, $imm1, $imm2, 15, 9        # disksector while busy: not the command's
        lw $t0, $zero, $imm1, $zero, 0x201, 0        # a word of the sector, which has not come yet
        add $t1, $imm1, $zero, $zero, 3, 0
        mac $t1, $t1, $imm1, $imm2, 256, 200         # the pixel of line 3, column 200
        out $zero, $zero, $imm1, $t1, 20, 0          # monitoraddr
        out $zero, $zero, $imm1, $imm2, 21, -1       # monitordata: low 8 bits
        out $zero, $zero, $imm1, $imm2, 22, 1        # monitorcmd
        in $s0, $zero, $imm1, $zero, 17, 0           # diskstatus
        in $s1, $zero, $imm1, $zero, 8, 0            # clks
        sw $t0, $zero, $imm1, $s1, 0x300, 0
loop:   add $s2, $s2, $imm1, $zero, 1, 0
        out $zero, $zero, $imm1, $s2, 10, 0          # display7seg
        blt $zero, $s2, $imm1, $imm2, 6, loop
        out $zero, $zero, $imm1, $imm2, 8, 1000      # clks
        out $zero, $zero, $imm1, $imm2, 13, 200      # timermax: rarer
busy:   in $t2, $zero, $imm1, $zero, 17, 0           # diskstatus
        bne $zero, $t2, $zero, $imm1, busy, 0
        lw $t0, $zero, $imm1, $zero, 0x201, 0        # now it has come
        sw $t0, $zero, $imm1, $zero, 0x2FF, 0
        out $zero, $zero, $imm1, $imm2, 15, 5        # disksector
        out $zero, $zero, $imm1, $imm2, 16, 0x2FE    # diskbuffer, with the words at 0x2FF and 0x300
        out $zero, $zero, $imm1, $imm2, 14, 2        # diskcmd: write
going:  add $v0, $v0, $imm1, $zero, 1, 0
        sw $v0, $zero, $imm1, $zero, 0x303, 0        # word 5 of the buffer: it goes as it is after 48 cycles
        blt $zero, $v0, $imm1, $imm2, 20, going
        lw $t2, $zero, $imm1, $zero, -1, 0           # address 0xFFFFFFFF: a fault while the disk is busy
        halt $zero, $zero, $zero, $zero, 0, 0

handler: in $a0, $zero, $imm1, $zero, 3, 0           # irq0status
        in $a1, $zero, $imm1, $zero, 5, 0            # irq2status
        out $zero, $zero, $imm1, $zero, 3, 0
        out $zero, $zero, $imm1, $zero, 5, 0
        add $gp, $gp, $imm1, $zero, 1, 0
        reti $zero, $zero, $zero, $zero, 0, 0

        .word 0x100 0xDEADBEEF
