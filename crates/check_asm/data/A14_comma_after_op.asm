# no comma after the op
halt, $zero, $zero, $zero, $zero, 0, 0
