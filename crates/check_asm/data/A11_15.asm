# registers have names, not numbers
add $15, $a0, $a1, $a2, 1, 2
