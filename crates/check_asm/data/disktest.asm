# disktest: moves the sectors 0 to 7 of the disk one sector forward.
#
#   At the end sector 1 holds what sector 0 held, and so on up to sector 8, which holds what
#   sector 7 held. Sector 0 keeps its words.
#
# The last sector has to go first: to begin with sector 0 would write over sector 1 before it is
# read. For each sector: read it into the buffer at 0x200, then write the buffer to the next one.
#
# A disk command takes 1,024 cycles. Here the program waits for its end by asking diskstatus (17)
# again and again; the example diskirq lets an interrupt tell it.
#
# Registers: $s0 = the sector to move, $a0 = sector and $a1 = command of the function disk.

        out  $zero, $zero, $imm1, $imm2, 16, 0x200 # diskbuffer = 0x200
        add  $s0, $zero, $imm1, $zero, 7, 0        # begin with sector 7

move:   add  $a0, $s0, $zero, $zero, 0, 0          # the sector to move ...
        add  $a1, $zero, $imm1, $zero, 1, 0        # ... is read (command 1) ...
        jal  $ra, $zero, $zero, $imm1, disk, 0     # ... into the buffer
        add  $a0, $s0, $imm1, $zero, 1, 0          # the sector after it ...
        add  $a1, $zero, $imm1, $zero, 2, 0        # ... is written (command 2) ...
        jal  $ra, $zero, $zero, $imm1, disk, 0     # ... from the buffer
        sub  $s0, $s0, $imm1, $zero, 1, 0          # the sector before this one
        bge  $zero, $s0, $zero, $imm1, move, 0     # if it is 0 or above goto move
        halt $zero, $zero, $zero, $zero, 0, 0      # the end

# disk: gives the disk the command $a1 (1 read, 2 write) for the sector $a0 and waits for its end.
disk:   out  $zero, $zero, $imm1, $a0, 15, 0       # disksector = $a0
        out  $zero, $zero, $imm1, $a1, 14, 0       # diskcmd = $a1
busy:   in   $t0, $zero, $imm1, $zero, 17, 0       # $t0 = diskstatus
        bne  $zero, $t0, $zero, $imm1, busy, 0     # if it is 1 the disk is still busy: goto busy
        beq  $zero, $zero, $zero, $ra, 0, 0        # return
