# also where no register is $imm2
halt $zero, $zero, $zero, $zero, 0, 3000
