# decimals run from -2048 to 2047, leading zeros or not
add $v0, $a0, $a1, $a2, -2048, 2047
add $v0, $a0, $a1, $a2, -1, -0
add $v0, $a0, $a1, $a2, 0000002047, -0000002048
