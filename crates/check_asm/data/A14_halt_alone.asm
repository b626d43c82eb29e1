# all six operands must stand
halt
