# only the colon right after it makes a label
add : add $v0, $a0, $a1, $a2, 1, 2
