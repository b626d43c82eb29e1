# all six operands must stand
halt $zero, $zero, $zero, $zero, 0
