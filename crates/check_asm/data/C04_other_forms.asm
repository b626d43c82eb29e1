# hexadecimal and binary keep the wider range
add $v0, $a0, $a1, $a2, 0x800, 0xFFF
add $v0, $a0, $a1, $a2, 0b100000000000, 0b111111111111
