# digits of either case
.word 0xaB 0xaBcDeF01
add $v0, $a0, $a1, $a2, 0xfE, 0xFe
