# circle: draws a full white circle in the middle of the screen.
#
#   The radius r stands at 0x100. The middle is the pixel of column 128 and line 128. A pixel
#   that is dx columns and dy lines away from it belongs to the circle if dx*dx + dy*dy <= r*r.
#
# The screen has 65,536 pixels. Only those of the square around the circle are looked at, so that
# dx and dy both run from -r to r.
#
# To write a pixel, monitoraddr (20) gets 256*line + column, monitordata (21) the gray value and
# monitorcmd (22) a 1.
#
# Registers: $s0 = r, $s1 = r*r, $t0 = dy, $t1 = dx, $t2 = dx*dx + dy*dy, $a0 = pixel address.

        lw   $s0, $zero, $imm1, $zero, 0x100, 0    # $s0 = r
        mac  $s1, $s0, $s0, $zero, 0, 0            # $s1 = r*r
        out  $zero, $zero, $imm1, $imm2, 21, 255   # monitordata = 255, white

        sub  $t0, $zero, $s0, $zero, 0, 0          # dy = -r
line:   sub  $t1, $zero, $s0, $zero, 0, 0          # dx = -r
pixel:  mac  $t2, $t0, $t0, $zero, 0, 0            # $t2 = dy*dy
        mac  $t2, $t1, $t1, $t2, 0, 0              # $t2 = dx*dx + dy*dy
        bgt  $zero, $t2, $s1, $imm1, next, 0       # outside: goto next

        add  $a0, $t0, $imm1, $zero, 128, 0        # $a0 = line = 128 + dy
        sll  $a0, $a0, $imm1, $zero, 8, 0          # $a0 = 256*line
        add  $a0, $a0, $t1, $imm1, 128, 0          # $a0 = 256*line + 128 + dx
        out  $zero, $zero, $imm1, $a0, 20, 0       # monitoraddr = $a0
        out  $zero, $zero, $imm1, $imm2, 22, 1     # monitorcmd = 1: write the pixel

next:   add  $t1, $t1, $imm1, $zero, 1, 0          # dx = dx + 1
        ble  $zero, $t1, $s0, $imm1, pixel, 0      # if dx <= r goto pixel
        add  $t0, $t0, $imm1, $zero, 1, 0          # dy = dy + 1
        ble  $zero, $t0, $s0, $imm1, line, 0       # if dy <= r goto line
        halt $zero, $zero, $zero, $zero, 0, 0      # the end

        .word 0x100 5                              # the radius
