
add $t3, $t2, $t1, $t0, 0, 0
