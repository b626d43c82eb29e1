# a used label of 51 letters
add $v0, $a0, $a1, $a2, aaaaaaaaaaaaaaaaaaaaaaaaaaaaaaaaaaaaaaaaaaaaaaaaaaa, 2
