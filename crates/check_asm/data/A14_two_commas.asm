# one comma between
halt $zero,, $zero, $zero, $zero, 0, 0
