# and no more
halt $zero, $zero, $zero, $zero, 0, 0, 0
