# labels with the name of an op, of a register without $, or of hexadecimal digits
add:   add  $v0, $a0, $a1, $a2, add, zero        # 0
zero:  halt $zero, $zero, $zero, $zero, t0, A0   # 1
t0:
A0:    add  $v0, $a0, $a1, $a2, x10, word        # 2
x10:   reti $zero, $zero, $zero, $zero, 0, 0     # 3
word:  halt $zero, $zero, $zero, $zero, halt, 0  # 4
halt:
