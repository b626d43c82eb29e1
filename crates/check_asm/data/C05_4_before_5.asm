# an unknown operation comes first
foo $v0, $a0, $a1, $a2, 4095, 2
