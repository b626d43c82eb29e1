# b1010 is a label, 0x0b1 is hexadecimal
       halt $zero, $zero, $zero, $zero, 0, 0
b1010: add $v0, $a0, $a1, $a2, b1010, 0x0b1
