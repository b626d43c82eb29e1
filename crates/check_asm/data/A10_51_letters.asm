# of 51 letters
aaaaaaaaaaaaaaaaaaaaaaaaaaaaaaaaaaaaaaaaaaaaaaaaaaa $v0, $a0, $a1, $a2, 1, 2
