# no blank after the minus
add $v0, $a0, $a1, $a2, - 1, 2
