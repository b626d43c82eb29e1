# an op that is not known
foo $v0, $a0, $a1, $a2, 1, 2
