# lights: a light that walks over the 32 leds, and a counter on display7seg.
#
#   What to see in the log: every out logs an H line, but an L line (leds) or a D line
#   (display7seg) only where the value changes. The leds are 0 at the start, so the first out logs
#   no L; nor does the second out of the same value inside the loop.
#
# Registers: $t0 = the light's place, 0 to 31, $t1 = the leds, $t2 = half of the place.

        out  $zero, $zero, $imm1, $zero, 9, 0      # leds = 0: no change, no L line

step:   sll  $t1, $imm1, $t0, $zero, 1, 0          # $t1 = 1 shifted to the light's place
        out  $zero, $zero, $imm1, $t1, 9, 0        # leds = $t1: a change
        out  $zero, $zero, $imm1, $t1, 9, 0        # the same once more: no L line
        srl  $t2, $t0, $imm1, $zero, 1, 0          # $t2 = place / 2
        out  $zero, $zero, $imm1, $t2, 10, 0       # display7seg: changes at every second step
        add  $t0, $t0, $imm1, $zero, 1, 0          # the next place
        blt  $zero, $t0, $imm1, $imm2, 32, step    # 32 steps

        out  $zero, $zero, $imm1, $zero, 9, 0      # leds off
        halt $zero, $zero, $zero, $zero, 0, 0
