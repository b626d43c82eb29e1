# a line of 500 bytes does
add $v0, $a0, $a1, $a2, L, 0
L:                                                                                                                                                                                                                                                                                                                                                                                                                                                                                                                  
