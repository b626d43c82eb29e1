# the operands are missing
halt
