# no blank after the colon, the commas and the last number, nor before the comment
L:add $v0,$a0,$a1,$a2,1,2#c
