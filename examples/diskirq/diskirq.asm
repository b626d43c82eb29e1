# diskirq: two disk commands, the second one started by the handler of the first one's interrupt.
#
#   The main program fills a buffer at 0x200 with 128 words, gives the command to write it to
#   sector 5, and then goes on with its own work: it counts in $t0 while the disk is busy. When the
#   disk has finished, interrupt 1 comes. The handler then has sector 5 read back to 0x300. At the
#   next interrupt 1 it raises $s2, and the main program halts.
#
# Registers: $s0 = how many disk interrupts came, $s2 = all is done, $t0 = main program's counter.

        add  $t1, $zero, $zero, $zero, 0, 0        # i = 0
fill:   mac  $t2, $t1, $t1, $imm2, 0, 7            # $t2 = i*i + 7
        sw   $t2, $t1, $imm1, $zero, 0x200, 0      # buffer[i] = $t2
        add  $t1, $t1, $imm1, $zero, 1, 0          # i = i + 1
        blt  $zero, $t1, $imm1, $imm2, 128, fill   # if i < 128 goto fill

        out  $zero, $zero, $imm1, $imm2, 6, ended  # irqhandler = address of ended
        out  $zero, $zero, $imm1, $imm2, 1, 1      # irq1enable = 1
        out  $zero, $zero, $imm1, $imm2, 15, 5     # disksector = 5
        out  $zero, $zero, $imm1, $imm2, 16, 0x200 # diskbuffer = 0x200
        out  $zero, $zero, $imm1, $imm2, 14, 2     # diskcmd = 2: write

work:   add  $t0, $t0, $imm1, $zero, 1, 0          # other work meanwhile
        beq  $zero, $s2, $zero, $imm1, work, 0     # until all is done
        halt $zero, $zero, $zero, $zero, 0, 0

# The handler of interrupt 1
ended:  out  $zero, $zero, $imm1, $zero, 4, 0      # irq1status = 0: this one is served
        add  $s0, $s0, $imm1, $zero, 1, 0          # one more
        out  $zero, $zero, $imm1, $s0, 10, 0       # display7seg = how many
        beq  $zero, $s0, $imm1, $imm2, 2, last     # the second one?
        out  $zero, $zero, $imm1, $imm2, 16, 0x300 # diskbuffer = 0x300
        out  $zero, $zero, $imm1, $imm2, 14, 1     # diskcmd = 1: read sector 5 again
        reti $zero, $zero, $zero, $zero, 0, 0
last:   add  $s2, $zero, $imm1, $zero, 1, 0        # all is done
        reti $zero, $zero, $zero, $zero, 0, 0
