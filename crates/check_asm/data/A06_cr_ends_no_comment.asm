# CR ends no comment either:foo
add $v0, $a0, $a1, $a2, 1, 2
