# a used label of 50 letters, which is not defined
add $v0, $a0, $a1, $a2, aaaaaaaaaaaaaaaaaaaaaaaaaaaaaaaaaaaaaaaaaaaaaaaaaa, 2
