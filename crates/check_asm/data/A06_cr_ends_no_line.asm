# CR ends no line: two instructions on one
add $v0, $a0, $a1, $a2, 1, 2add $v0, $a0, $a1, $a2, 1, 2
