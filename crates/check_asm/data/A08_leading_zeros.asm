# leading zeros up to ten (eight) digits
.word 0000000016 0000000010
.word 0x00000020 0x00000010
add $v0, $a0, $a1, $a2, 0000000010, 0x00000010
