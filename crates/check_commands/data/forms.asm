# each form of a line, and operations that are not instructions: add $zero, $zero, $zero, $zero, 0, 0
start: add $t0,$t0,$imm1,$zero,1,0 # a, comma, in, a, comment

	.word 0x100 -7   # one word of data
end:
  beq  $zero , $t0 , $t1 , $imm1 , start , end
halt $zero, $zero, $zero, $zero, 0, 0
add $zero, $zero, $zero, $zero, 0, 0 # the word is zero
